// Makes elements. What a trace says becomes text and never markup.
const SVG = "http://www.w3.org/2000/svg";

function filled(element, attributes, children) {
  for (const [name, value] of Object.entries(attributes)) {
    if (value !== undefined && value !== null) element.setAttribute(name, String(value));
  }
  for (const child of children) element.append(child);
  return element;
}

/** An element of HTML with these attributes; children are elements or texts. */
export function html(tag, attributes = {}, ...children) {
  return filled(document.createElement(tag), attributes, children);
}

/** The same of SVG. */
export function svg(tag, attributes = {}, ...children) {
  return filled(document.createElementNS(SVG, tag), attributes, children);
}

/** Puts these children in place of what an element has. */
export function refill(element, ...children) {
  element.replaceChildren(...children);
}

export function byId(name) {
  return document.getElementById(name);
}

/** Sets an element's text, where it is another one. */
export function say(element, text) {
  if (element.textContent !== text) element.textContent = text;
}

/** The class of a family's colour. The colours come again after eight families. */
export function colourOf(familyPlace) {
  return `colour-${familyPlace % 8}`;
}

/** A text of at most so many characters. */
export function cutText(text, most) {
  const characters = [...text.slice(0, most * 2 + 2)];
  return characters.length <= most ? text : `${characters.slice(0, most - 1).join("")}…`;
}
