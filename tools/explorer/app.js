// The page: what was chosen, where in time it is, and what each view shows of it.
import { Balance } from "./balance.js";
import { byId, html, refill, say, svg } from "./dom.js";
import { HEADS, Ledger, Tree } from "./family.js";
import { LineView, fillKinds } from "./lines.js";
import { Network } from "./network.js";
import { PacketView } from "./packet.js";
import { LONGEST, Refusal } from "./reader.js";
import { runOf, runOfText, stateWords } from "./run.js";
import { LEGEND, WORDS, signOf } from "./signs.js";

const KEYS = [
  ["→ ←", "one event on, back"], ["n p", "next, last event with a line that the filters leave"], ["space", "play, pause"],
  ["1 2 3", "speed"], ["Home End", "before the first event, the last one"], ["a t", "adverts, ticks"], ["/", "text to look for"],
  ["Esc", "nothing chosen, no filters"], ["↑ ↓ Enter", "in a list: move, choose"],
];
const SPEEDS = ["1", "4", "20"];
const OF_SLIDERS = new Set(["ArrowLeft", "ArrowRight", "ArrowUp", "ArrowDown", "Home", "End", "PageUp", "PageDown"]);

class Page {
  constructor() {
    this.run = null;
    this.event = -1;
    this.choice = { host: null, family: -1, packet: -1, frame: -1, adverts: false, ticks: false };
    this.network = new Network(byId("network"), (chosen) => this.chosenInNetwork(chosen));
    this.lines = new LineView(byId("lines"), byId("line-count"), (event, packet) => {
      if (packet !== null) this.choosePacket(packet);
      this.go(event);
    });
    this.ledger = new Ledger(byId("ledger"), (family) => this.chooseFamily(family));
    this.balance = new Balance(byId("numbers"), byId("areas"), (event) => this.go(event));
    this.tree = new Tree(byId("tree"), byId("family-title"), (packet) => this.choosePacket(packet));
    this.packet = new PacketView(byId("packet"), byId("packet-title"), (packet) => this.choosePacket(packet));
  }

  // Opening

  async openFile(file) {
    try {
      if (file.size > LONGEST) throw new Refusal("the file has more than 64 MB");
      const bytes = await file.arrayBuffer();
      this.open(() => runOf(bytes), file.name);
    } catch (fault) {
      this.refuse(fault, file.name);
    }
  }

  /** Where a trace is open already, it stays. */
  refuse(fault, name) {
    if (!(fault instanceof Refusal)) say(byId("fault"), `${name} wasn't read: ${fault.message}`);
    else say(byId("fault"), `${name} is refused: ${fault.message}`);
    byId("fault").hidden = false;
  }

  /** Shows the run that is read, and keeps how many milliseconds that took. */
  open(read, name) {
    const began = performance.now();
    const run = read();
    this.pause();
    this.run = run;
    this.event = -1;
    Object.assign(this.choice, { host: null, family: run.accounts.list.length > 0 ? 0 : -1, packet: -1, frame: -1 });
    document.body.classList.remove("empty");
    say(byId("file-name"), name);
    document.title = `${name} – planet explorer`;
    this.sayFault();
    this.sayVerdict();
    this.fillChoices();
    this.network.setRun(run);
    this.lines.setRun(run);
    this.ledger.setRun(run);
    byId("slider").max = String(run.eventCount);
    byId("text").value = "";
    this.filter();
    this.go(this.eventOfHash() ?? Math.min(0, run.eventCount - 1));
    document.body.dataset.opened = (performance.now() - began).toFixed(1);
  }

  sayFault() {
    const { fault } = this.run;
    const place = fault && `line ${fault.number} ${fault.what}`;
    const shown = fault && fault.text !== "" ? `: ${fault.text.slice(0, 120)}` : "";
    byId("fault").hidden = !fault;
    say(byId("fault"), fault ? `${place}${shown} — what stands before it is shown` : "");
  }

  /** Whether the ledger, as the lines make it, is the one that the trace has. */
  sayVerdict() {
    const [className, text, more] = this.verdict();
    const box = byId("verdict");
    box.className = className;
    box.title = more ?? "";
    say(box, text);
  }

  /** The verdict as a class, a text, and what more there is to say. */
  verdict() {
    const { gap, differences, accounts, ledger, isWhole, isOpen } = this.run;
    if (gap > 0) return ["bad", `lines are missing, first before line ${gap}, so counts and places may be wrong`];
    if (differences.length > 0) {
      const others = differences.length > 1 ? `, and ${differences.length - 1} more` : "";
      return ["bad", `the ledger isn't what the lines make: ${differences[0]}${others}`, differences.slice(0, 50).join("\n")];
    }
    if (accounts.unbalanced) {
      const { family, event } = accounts.unbalanced;
      return ["bad", `the counts of ${family} don't add up from event ${this.run.number(event)} on`];
    }
    if (!isWhole) return ["open", "the trace ends early, so it has no ledger to compare with"];
    if (ledger) return ["good", `the ledger of ${ledger.length} ${ledger.length === 1 ? "family" : "families"} is what the lines make`];
    return ["open", isOpen ? "a node's log: it has no ledger, and frames come from outside" : "the trace has no ledger to compare with"];
  }

  fillChoices() {
    refill(byId("host"), html("option", { value: "" }, "all hosts"), ...this.run.hostNumbers.map((host) => html("option", { value: host }, `@${host}`)));
    fillKinds(byId("kind"), this.run);
    byId("family").value = "";
  }

  // Time

  eventOfHash() {
    const found = /(?:^#|&)e=(\d+)/.exec(location.hash);
    if (!found || !this.run) return null;
    return Math.max(-1, this.run.placeOf(Number(found[1])));
  }

  go(event) {
    if (!this.run) return;
    this.event = Math.max(-1, Math.min(this.run.eventCount - 1, event));
    this.show();
    clearTimeout(this.hashTimer);
    this.hashTimer = setTimeout(() => history.replaceState(null, "", `#e=${this.run.number(this.event)}`), 200);
  }

  step(direction) {
    this.go(this.event + direction);
  }

  /** Goes to the next event that has a line which the filters leave, and answers whether there was one. */
  jump(direction) {
    const event = this.lines.nextEvent(this.event, direction);
    if (event !== null) this.go(event);
    return event !== null;
  }

  pause() {
    clearInterval(this.timer);
    this.timer = null;
    say(byId("play"), "play");
  }

  play() {
    if (!this.run) return;
    clearInterval(this.timer);
    say(byId("play"), "pause");
    this.timer = setInterval(() => {
      if (!this.jump(1)) this.pause();
    }, 1000 / Number(byId("speed").value));
  }

  togglePlay() {
    if (this.timer) this.pause();
    else this.play();
  }

  setSpeed(speed) {
    byId("speed").value = speed;
    if (this.timer) this.play();
  }

  // What is chosen

  filter() {
    if (!this.run) return;
    const host = byId("host").value;
    const family = byId("family").value.trim();
    const place = family === "" ? -1 : this.run.accounts.byName.get(family);
    byId("family").classList.toggle("unknown", place === undefined);
    this.choice.host = host === "" ? null : Number(host);
    if (place >= 0) this.choice.family = place;
    // a family that isn't there has no lines
    this.lines.filter({
      host: this.choice.host, family: place ?? this.run.accounts.list.length, word: byId("kind").value, text: byId("text").value,
      adverts: this.choice.adverts, ticks: this.choice.ticks,
    });
  }

  refilter() {
    this.filter();
    this.show();
  }

  clear() {
    for (const name of ["host", "kind", "family", "text"]) byId(name).value = "";
    Object.assign(this.choice, { packet: -1, frame: -1 });
    this.refilter();
  }

  toggle(name) {
    this.choice[name] = !this.choice[name];
    byId(name).checked = this.choice[name];
    this.refilter();
  }

  chooseFamily(family) {
    Object.assign(this.choice, { family, packet: -1, frame: -1 });
    byId("family").value = this.run.familyName(family);
    this.refilter();
  }

  choosePacket(packet) {
    Object.assign(this.choice, { packet, frame: -1, family: this.run.packets[packet].family });
    this.show();
  }

  chosenInNetwork({ host, frame }) {
    if (host !== undefined) {
      byId("host").value = this.choice.host === host ? "" : String(host);
      this.refilter();
    } else if (frame.packet >= 0) this.choosePacket(frame.packet);
    else {
      Object.assign(this.choice, { packet: -1, frame: frame.index });
      this.show();
    }
  }

  // Showing

  show() {
    if (!this.run) return;
    const { run, event, choice } = this;
    const subject = this.subject();
    byId("slider").value = String(event + 1);
    byId("slider").setAttribute("aria-valuetext", String(run.number(event)));
    say(byId("now"), event < 0 ? `before the first of ${run.eventCount}` : `event ${run.number(event)} of ${run.number(run.eventCount - 1)}`);
    this.network.show(event, { ...choice, packet: subject.packet?.index ?? -1 });
    this.lines.show(event);
    this.ledger.show(event, choice.family);
    this.balance.show(run, choice.family, event);
    this.tree.show(run, choice.family, event, subject.packet && subject.packet.family === choice.family ? subject.packet.index : -1);
    this.packet.show(run, event, subject.packet, subject.frame);
    byId("follow").hidden = choice.packet < 0 && choice.frame < 0;
    if (!byId("words").hidden) this.showWords();
  }

  /** The packet or advert that was chosen, or else the one that the event is about. A family that wasn't chosen follows. */
  subject() {
    const { run, event, choice } = this;
    if (choice.packet >= 0) return { packet: run.packets[choice.packet], frame: null };
    if (choice.frame >= 0) return { packet: null, frame: run.frames[choice.frame] };
    const packet = event < 0 ? null : run.subjectOf(event);
    if (packet && byId("family").value.trim() === "") choice.family = packet.family;
    if (packet || event < 0) return { packet, frame: null };
    const [first, behind] = run.linesOf(event);
    for (let line = first; line < behind; line += 1) {
      const frame = run.lineFrames.at(line - 2);
      if (frame >= 0) return { packet: null, frame: run.frames[frame] };
    }
    return { packet: null, frame: null };
  }

  showWords() {
    const { queues, wire } = stateWords(this.run, this.event);
    const items = (texts) => (texts.length > 0 ? texts : ["nothing"]).slice(0, 500).map((text) => html("li", {}, text));
    refill(byId("queued"), ...items(queues));
    refill(byId("wired"), ...items(wire));
  }

  toggleWords() {
    byId("words").hidden = !byId("words").hidden;
    byId("as-words").setAttribute("aria-expanded", String(!byId("words").hidden));
    if (this.run) this.showWords();
  }

  toggleKeys() {
    byId("keys").hidden = !byId("keys").hidden;
    byId("help").setAttribute("aria-expanded", String(!byId("keys").hidden));
  }

  pressed(press) {
    if (press.ctrlKey || press.metaKey || press.altKey || !this.run) return;
    const isTyping = press.target.matches?.('input[type="text"], input[type="search"]');
    if (press.key === "Escape") {
      this.clear();
      press.target.blur?.();
      return;
    }
    const isChoosing = press.target.matches?.("select") && press.key !== "n" && press.key !== "p";
    const isSliding = press.target.matches?.("input[type=range]") && OF_SLIDERS.has(press.key);
    const isPressing = press.key === " " && press.target.matches?.("button, input:not([type=range]), a");
    if (isTyping || isChoosing || isSliding || isPressing) return;
    const acts = {
      ArrowRight: () => this.step(1), ArrowLeft: () => this.step(-1), n: () => this.jump(1), p: () => this.jump(-1), " ": () => this.togglePlay(),
      Home: () => this.go(-1), End: () => this.go(this.run.eventCount - 1), a: () => this.toggle("adverts"), t: () => this.toggle("ticks"),
      1: () => this.setSpeed(SPEEDS[0]), 2: () => this.setSpeed(SPEEDS[1]), 3: () => this.setSpeed(SPEEDS[2]), "/": () => byId("text").focus(),
    };
    if (!(press.key in acts)) return;
    press.preventDefault();
    acts[press.key]();
  }
}

function listen(page) {
  const on = (name, kind, act) => byId(name).addEventListener(kind, act);
  on("open", "click", () => byId("file").click());
  on("file", "change", () => {
    const [file] = byId("file").files;
    if (file) page.openFile(file);
    byId("file").value = "";
  });
  on("slider", "input", () => page.go(Number(byId("slider").value) - 1));
  on("play", "click", () => page.togglePlay());
  on("first", "click", () => page.go(-1));
  on("last", "click", () => page.go(page.run.eventCount - 1));
  on("back", "click", () => page.step(-1));
  on("on", "click", () => page.step(1));
  on("speed", "change", () => page.setSpeed(byId("speed").value));
  for (const name of ["adverts", "ticks"]) on(name, "change", () => page.toggle(name));
  for (const name of ["host", "kind"]) on(name, "change", () => page.refilter());
  for (const name of ["family", "text"]) on(name, "input", () => page.refilter());
  on("clear", "click", () => page.clear());
  on("follow", "click", () => {
    Object.assign(page.choice, { packet: -1, frame: -1 });
    page.show();
  });
  on("as-words", "click", () => page.toggleWords());
  on("help", "click", () => page.toggleKeys());
  document.addEventListener("keydown", (press) => page.pressed(press));
  window.addEventListener("hashchange", () => page.go(page.eventOfHash() ?? page.event));
  document.addEventListener("dragover", (drag) => drag.preventDefault());
  document.addEventListener("drop", (drop) => {
    drop.preventDefault();
    const [file] = drop.dataTransfer.files;
    if (drop.dataTransfer.files.length > 1) page.refuse(new Refusal("one trace at a time; tools/explore makes one of a fleet's logs"), "the drop");
    else if (file) page.openFile(file);
  });
}

function explain() {
  refill(byId("key-list"), ...KEYS.map(([key, does]) => html("div", {}, html("dt", {}, key), html("dd", {}, does))));
  const marks = LEGEND.map(([name, path]) => {
    const place = { class: `mark ${name === "advert" ? "of-advert" : "colour-0"}`, viewBox: "-6 -6 12 12", width: 14, height: 14 };
    return [svg("svg", place, svg("path", { d: path })), name];
  });
  const signs = WORDS.filter((word) => word !== "port").map((word) => [signOf(word, 13), word]);
  refill(byId("legend"), ...[...marks, ...signs].map(([sign, name]) => html("div", {}, html("dt", {}, sign), html("dd", {}, name))));
  refill(byId("ledger-head"), ...["family", ...HEADS].map((name) => html("span", {}, name)));
}

const page = new Page();
explain();
listen(page);
const held = byId("trace");
if (held) {
  const { name, text } = JSON.parse(held.textContent);
  // its text isn't kept twice
  held.remove();
  try {
    page.open(() => runOfText(text), name);
  } catch (fault) {
    page.refuse(fault, name);
  }
}
