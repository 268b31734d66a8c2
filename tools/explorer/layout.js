// Places of the hosts of a network: near in the picture what is near in links, and no two over each other.

/** The number of links between each two points; between parts that no link joins, one more than the longest. */
function distances(count, links) {
  const far = Array.from({ length: count }, () => new Array(count).fill(Infinity));
  const next = Array.from({ length: count }, () => []);
  for (const [one, other] of links) {
    next[one].push(other);
    next[other].push(one);
  }
  let longest = 1;
  for (let from = 0; from < count; from += 1) {
    far[from][from] = 0;
    const waiting = [from];
    for (const at of waiting) {
      for (const to of next[at].filter((it) => far[from][it] === Infinity)) {
        far[from][to] = far[from][at] + 1;
        longest = Math.max(longest, far[from][to]);
        waiting.push(to);
      }
    }
  }
  return far.map((row) => row.map((it) => (it === Infinity ? longest + 1 : it)));
}

/** The two directions in which the distances differ most, by power iteration over the centred squares of the distances. */
function mainDirections(far) {
  const count = far.length;
  const squares = far.map((row) => row.map((it) => it * it));
  const means = squares.map((row) => row.reduce((sum, it) => sum + it, 0) / count);
  const mean = means.reduce((sum, it) => sum + it, 0) / count;
  const centred = squares.map((row, i) => row.map((it, j) => -(it - means[i] - means[j] + mean) / 2));
  const found = [];
  for (let axis = 0; axis < 2; axis += 1) {
    let way = far.map((_, place) => Math.sin(1 + place * (axis + 1.7)));
    let size = 0;
    for (let round = 0; round < 120; round += 1) {
      for (const { way: known } of found) {
        const along = way.reduce((sum, it, i) => sum + it * known[i], 0);
        way = way.map((it, i) => it - along * known[i]);
      }
      const turned = centred.map((row) => row.reduce((sum, it, i) => sum + it * way[i], 0));
      size = Math.hypot(...turned);
      if (size < 1e-9) break;
      way = turned.map((it) => it / size);
    }
    found.push({ way, size: size < 1e-9 ? 0 : Math.sqrt(size) });
  }
  return found;
}

/** Moves each point to where its distances to all others are told best, round by round. */
function refined(points, far) {
  let now = points;
  for (let round = 0; round < 80; round += 1) {
    now = now.map((point, i) => {
      let [x, y, weight] = [0, 0, 0];
      now.forEach((other, j) => {
        if (i === j) return;
        const share = 1 / (far[i][j] * far[i][j]);
        const apart = Math.hypot(point.x - other.x, point.y - other.y) || 1e-6;
        x += share * (other.x + (far[i][j] * (point.x - other.x)) / apart);
        y += share * (other.y + (far[i][j] * (point.y - other.y)) / apart);
        weight += share;
      });
      return weight === 0 ? point : { x: x / weight, y: y / weight };
    });
  }
  return now;
}

/** Places without a measure, for so many points and the links between them. */
export function spread(count, links) {
  const far = distances(count, links);
  const [first, second] = mainDirections(far);
  const points = far.map((_, i) => ({ x: first.way[i] * first.size, y: second.way[i] * second.size }));
  return turned(refined(points, far));
}

/** The first point stands to the left and above. */
function turned(points) {
  const mean = (axis) => points.reduce((sum, it) => sum + it[axis], 0) / Math.max(1, points.length);
  const [across, down] = ["x", "y"].map((axis) => (points.length > 0 && points[0][axis] > mean(axis) + 1e-6 ? -1 : 1));
  return points.map((it) => ({ x: it.x * across, y: it.y * down }));
}

function overlaps(points, wide, high) {
  let found = 0;
  for (let i = 0; i < points.length; i += 1) {
    for (let j = 0; j < i; j += 1) {
      if (Math.abs(points[i].x - points[j].x) < wide && Math.abs(points[i].y - points[j].y) < high) found += 1;
    }
  }
  return found;
}

/** Pushes points apart that stand over each other, inside of the room. */
function pushedApart(points, room, wide, high) {
  const now = points.map((it) => ({ ...it }));
  for (let round = 0; round < 300 && overlaps(now, wide, high) > 0; round += 1) {
    for (let i = 0; i < now.length; i += 1) {
      for (let j = 0; j < i; j += 1) {
        const [dx, dy] = [now[i].x - now[j].x, now[i].y - now[j].y];
        if (Math.abs(dx) >= wide || Math.abs(dy) >= high) continue;
        const sideways = wide - Math.abs(dx) < high - Math.abs(dy);
        const push = 0.51 * (sideways ? wide - Math.abs(dx) : high - Math.abs(dy));
        const sign = (sideways ? dx : dy || (i + j) % 2 || -1) < 0 ? -1 : 1;
        const axis = sideways ? "x" : "y";
        now[i][axis] += sign * push;
        now[j][axis] -= sign * push;
      }
    }
    for (const it of now) {
      it.x = Math.max(room.left, Math.min(room.right, it.x));
      it.y = Math.max(room.top, Math.min(room.bottom, it.y));
    }
  }
  return now;
}

/** The points on an oval, in the order of the directions in which they stood, or from left to right where they stood in a row. */
function onOval(points, room) {
  const middle = { x: (room.left + room.right) / 2, y: (room.top + room.bottom) / 2 };
  const flat = points.every((it) => Math.abs(it.y - points[0].y) < 1);
  const key = (it) => (flat ? it.x : Math.atan2(it.y - middle.y, it.x - middle.x));
  const order = points.map((it, place) => [key(it), place]).sort((a, b) => a[0] - b[0]);
  const now = points.map((it) => ({ ...it }));
  order.forEach(([, place], at) => {
    const turn = Math.PI + (2 * Math.PI * (at + 0.5)) / points.length;
    now[place].x = middle.x + (Math.cos(turn) * (room.right - room.left)) / 2;
    now[place].y = middle.y + (Math.sin(turn) * (room.bottom - room.top)) / 2;
  });
  return now;
}

/** Places in pixels: the points fill the room, and no two are nearer than a label is wide and high. */
export function fitted(points, room, wide, high) {
  if (points.length === 0) return [];
  const [xs, ys] = [points.map((it) => it.x), points.map((it) => it.y)];
  const [left, right, top, bottom] = [Math.min(...xs), Math.max(...xs), Math.min(...ys), Math.max(...ys)];
  const across = right - left > 1e-6 ? (room.right - room.left) / (right - left) : 0;
  const down = bottom - top > 1e-3 * (right - left) ? (room.bottom - room.top) / (bottom - top) : 0;
  const [scaleX, scaleY] = [Math.min(across, (down || across) * 2), Math.min(down, (across || down) * 1.4)];
  const scaled = points.map((it) => ({
    x: (room.left + room.right) / 2 + (it.x - (left + right) / 2) * scaleX,
    y: (room.top + room.bottom) / 2 + (it.y - (top + bottom) / 2) * scaleY,
  }));
  if (overlaps(scaled, wide, high) > points.length / 3) return pushedApart(onOval(scaled, room), room, wide, high);
  return pushedApart(scaled, room, wide, high);
}
