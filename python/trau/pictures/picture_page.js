"use strict";
const data = JSON.parse(document.getElementById("data").textContent);
const canvas = document.getElementById("view");
const note = document.getElementById("note");
const pen = canvas.getContext("2d");
const LEFT = 110, RIGHT = 300, AXIS = 52;
const shape = data.shape;
const ROW = shape.marks + shape.band + shape.down + shape.level + shape.bridge + shape.space;
const seen = { first: data.first, last: data.last, top: 0 };

async function unpack(text) {
  const packed = Uint8Array.from(atob(text), (letter) => letter.charCodeAt(0));
  const stream = new Blob([packed]).stream().pipeThrough(new DecompressionStream("deflate"));
  return new Uint8Array(await new Response(stream).arrayBuffer());
}

function hatching() {
  const tile = document.createElement("canvas");
  tile.width = tile.height = 5;
  const lines = tile.getContext("2d");
  lines.fillStyle = "#FFFFFF";
  lines.fillRect(0, 0, 5, 5);
  lines.strokeStyle = "#777777";
  lines.beginPath();
  lines.moveTo(0, 5);
  lines.lineTo(5, 0);
  lines.stroke();
  return pen.createPattern(tile, "repeat");
}

const nothing = hatching();
const colour = (look) => look.colour.startsWith("url") ? nothing : look.colour;
const plotWidth = () => Math.max(50, canvas.clientWidth - LEFT - RIGHT);
const scale = () => plotWidth() / (seen.last - seen.first);
const x = (period) => LEFT + (Math.min(Math.max(period, seen.first), seen.last) - seen.first) * scale();
const periodAt = (place) => seen.first + (place - LEFT) / scale();
const rowTop = (row) => AXIS + row * ROW - seen.top;

// A column of pixels: each loss by its part of the height, a pixel at least, below what most of the other periods are.
function column(codes, from, to, looks, left, width, top, height) {
  const counts = new Array(looks.length + 1).fill(0);
  for (let period = from; period < to; period += 1) { counts[Math.min(codes[period], looks.length)] += 1; }
  const total = to - from - counts[looks.length];
  if (total === 0) { return; }
  let bottom = top + height, most = -1;
  looks.forEach((look, code) => {
    if (!look.loss && counts[code] && (most < 0 || counts[code] > counts[most])) { most = code; }
  });
  looks.forEach((look, code) => {
    if (look.loss && counts[code]) {
      const high = Math.min(bottom - top, Math.max(1, Math.round(height * counts[code] / total)));
      pen.fillStyle = colour(look);
      pen.fillRect(left, bottom - high, width, high);
      bottom -= high;
    }
  });
  if (most >= 0 && bottom > top) {
    pen.fillStyle = colour(looks[most]);
    pen.fillRect(left, top, width, bottom - top);
  }
}

function columnsOf(call, length, each) {
  const from = Math.max(call.start, Math.floor(seen.first)), to = Math.min(call.start + length, Math.ceil(seen.last));
  let period = from;
  while (period < to) {
    const left = Math.floor(x(period));
    let next = Math.min(to, Math.max(period + 1, Math.ceil(periodAt(left + 1))));
    each(period - call.start, next - call.start, left, Math.max(1, Math.floor(x(next)) - left));
    period = next;
  }
}

function band(call, codes, looks, top, height) {
  columnsOf(call, codes.length, (from, to, left, width) => column(codes, from, to, looks, left, width, top, height));
}

function levelLine(call, codes, line, top, height) {
  pen.strokeStyle = line;
  pen.beginPath();
  columnsOf(call, codes.length, (from, to, left, width) => {
    let loudest = 0;
    for (let period = from; period < to; period += 1) { loudest = Math.max(loudest, codes[period]); }
    const y = top + height * (1 - Math.min(240, loudest) / 240);
    pen.lineTo(left, y);
    pen.lineTo(left + width, y);
  });
  pen.stroke();
}

function words(text, left, y, size = 12, fill = "#222222", align = "left") {
  pen.font = size + "px 'DejaVu Sans', Verdana, Arial, sans-serif";
  pen.fillStyle = fill;
  pen.textAlign = align;
  pen.fillText(text, left, y);
}

function drawRow(call, row) {
  const top = rowTop(row), bandTop = top + shape.marks, downTop = bandTop + shape.band + 1;
  pen.fillStyle = "#F4F4F4";
  pen.fillRect(LEFT, bandTop, plotWidth(), shape.band);
  band(call, call.up, data.looks, bandTop, shape.band);
  band(call, call.down, data.downLooks, downTop, shape.down - 3);
  if (shape.level) {
    const levelTop = downTop + shape.down + 1;
    levelLine(call, call.pcm, data.colours.pcm, levelTop, shape.level - 4);
    levelLine(call, call.out, data.colours.out, levelTop, shape.level - 4);
  }
  const marks = [...call.shifts, ...call.waiting].map(([period]) => period).sort((one, other) => one - other);
  for (const [period] of call.waiting) { mark(period, bandTop, false); }
  for (const [period, octets] of call.shifts) {
    mark(period, bandTop, true);
    const next = marks.find((other) => other > period);
    if (shape.level && (next === undefined || (next - period) * scale() > 44)) { shiftOf(period, octets, bandTop); }
  }
  for (const bridge of call.bridges) {
    if (bridge.start < seen.last && bridge.end > seen.first) {
      bridgeBar(bridge, downTop + shape.down + shape.level);
    }
  }
  words("call " + call.number, LEFT - 12, bandTop + shape.band / 2 + 4, 12, "#222222", "right");
  words(call.words, LEFT + plotWidth() + 10, bandTop + shape.band / 2 + 4, 11);
}

function bridgeBar(bridge, top) {
  const left = x(bridge.start), width = Math.max(2, x(bridge.end) - left);
  pen.fillStyle = data.colours.bridge;
  pen.fillRect(left, top, width, shape.bridge - 3);
  if (shape.level && width > 60) { words("with " + bridge.partner, left + width / 2, top + shape.bridge - 6, 10, "#FFFFFF", "center"); }
}

function shiftOf(period, octets, y) {
  if (period >= seen.first && period < seen.last) { words((octets > 0 ? "+" : "") + octets, x(period + 0.5) + 6, y - 2, 10); }
}

function mark(period, y, filled) {
  if (period < seen.first || period >= seen.last) { return; }
  const place = x(period + 0.5);
  pen.beginPath();
  pen.moveTo(place - 4, y - 8);
  pen.lineTo(place + 4, y - 8);
  pen.lineTo(place, y - 1);
  pen.closePath();
  pen.strokeStyle = "#222222";
  pen.fillStyle = filled ? "#222222" : "#FFFFFF";
  pen.fill();
  pen.stroke();
}

function drawAxis() {
  pen.fillStyle = "#FFFFFF";
  pen.fillRect(0, 0, canvas.clientWidth, AXIS);
  let step = 1;
  for (let power = 1, times = [1, 2.5, 5], at = 0; step * scale() < 70; at = (at + 1) % 3) {
    if (at === 0 && step > 1) { power *= 10; }
    step = Math.ceil(times[at] * power);
  }
  words("seconds", LEFT - 30, 14, 11, "#555555", "right");
  words("period", LEFT - 30, 28, 11, "#555555", "right");
  for (let period = Math.ceil(seen.first / step) * step; period <= seen.last; period += step) {
    words(String(period / 50), x(period), 14, 12, "#222222", "center");
    words(String(period), x(period), 28, 11, "#555555", "center");
    pen.fillStyle = "#999999";
    pen.fillRect(x(period), 32, 1, 5);
  }
  for (const order of data.orders) {
    if (order.period < seen.first || order.period > seen.last) { continue; }
    pen.fillStyle = order.refused ? data.colours.alarm : "#222222";
    pen.fillRect(x(order.period) - 1, order.refused ? 36 : 40, 2, AXIS - (order.refused ? 37 : 41));
  }
  words("orders", LEFT - 30, 48, 11, "#555555", "right");
  pen.fillStyle = "#222222";
  pen.fillRect(LEFT, AXIS - 1, plotWidth(), 1);
}

function draw() {
  const dense = window.devicePixelRatio || 1;
  canvas.width = canvas.clientWidth * dense;
  canvas.height = canvas.clientHeight * dense;
  pen.setTransform(dense, 0, 0, dense, 0, 0);
  pen.fillStyle = "#FFFFFF";
  pen.fillRect(0, 0, canvas.clientWidth, canvas.clientHeight);
  data.calls.forEach((call, row) => {
    if (rowTop(row) > AXIS - ROW && rowTop(row) < canvas.clientHeight) { drawRow(call, row); }
  });
  drawAxis();
}

function move(periods, rows) {
  const length = seen.last - seen.first;
  seen.first = Math.max(data.first, Math.min(data.last - length, seen.first + periods));
  seen.last = seen.first + length;
  const most = Math.max(0, data.calls.length * ROW + AXIS + 10 - canvas.clientHeight);
  seen.top = Math.max(0, Math.min(most, seen.top + rows));
  draw();
}

function zoom(times, at) {
  const whole = data.last - data.first;
  const length = Math.min(whole, Math.max(Math.min(10, whole), (seen.last - seen.first) / times));
  const part = (at - seen.first) / (seen.last - seen.first);
  seen.first = at - part * length;
  seen.last = seen.first + length;
  move(0, 0);
}

const middle = () => (seen.first + seen.last) / 2;
const length = () => seen.last - seen.first;

function whole() {
  seen.first = data.first;
  seen.last = data.last;
  seen.top = 0;
  draw();
}

function lookAt(number) {
  seen.top = data.calls.findIndex((call) => call.number === number) * ROW;
  move(0, 0);
}

function tell(event) {
  const box = canvas.getBoundingClientRect();
  const y = event.clientY - box.top, period = Math.floor(periodAt(event.clientX - box.left));
  const when = "period " + period + " (" + (period / 50).toFixed(2) + " s)";
  const orders = data.orders.filter((order) => Math.abs(x(order.period) - (event.clientX - box.left)) < 4);
  const call = data.calls[Math.floor((y - AXIS + seen.top) / ROW)];
  if (y < AXIS) {
    note.textContent = orders.length ? orders.map((order) => "period " + order.period + ", " + order.words).join("; ") : when;
  } else if (call) {
    const up = data.looks[call.up[period - call.start]], down = data.downLooks[call.down[period - call.start]];
    const bridge = call.bridges.find((each) => each.start <= period && period < each.end);
    note.textContent = "call " + call.number + ", " + when + ": uplink " + (up ? up.words : "none")
      + "; downlink " + (down ? down.words : "none") + (bridge ? "; bridge with call " + bridge.partner : "") + " - " + call.told;
  }
}

let held = null;
canvas.addEventListener("wheel", (event) => {
  event.preventDefault();
  if (event.ctrlKey || event.shiftKey) {
    zoom((event.deltaY || event.deltaX) < 0 ? 1.25 : 0.8, periodAt(event.clientX - canvas.getBoundingClientRect().left));
  } else {
    move(event.deltaX / scale(), event.deltaY);
  }
}, { passive: false });
canvas.addEventListener("pointerdown", (event) => {
  held = { x: event.clientX, y: event.clientY };
  canvas.setPointerCapture(event.pointerId);
});
canvas.addEventListener("pointermove", (event) => {
  if (held) {
    move((held.x - event.clientX) / scale(), held.y - event.clientY);
    held = { x: event.clientX, y: event.clientY };
  } else {
    tell(event);
  }
});
canvas.addEventListener("pointerup", () => { held = null; });

const keys = {
  "+": () => zoom(1.5, middle()),
  "-": () => zoom(1 / 1.5, middle()),
  ArrowLeft: () => move(-length() / 8, 0),
  ArrowRight: () => move(length() / 8, 0),
  ArrowUp: () => move(0, -3 * ROW),
  ArrowDown: () => move(0, 3 * ROW),
  PageUp: () => move(0, AXIS - canvas.clientHeight),
  PageDown: () => move(0, canvas.clientHeight - AXIS),
  Home: whole,
};
document.addEventListener("keydown", (event) => {
  if (keys[event.key]) {
    event.preventDefault();
    keys[event.key]();
  }
});
document.getElementById("in").addEventListener("click", keys["+"]);
document.getElementById("out").addEventListener("click", keys["-"]);
document.getElementById("whole").addEventListener("click", whole);
for (const link of document.querySelectorAll("button[data-call]")) {
  link.addEventListener("click", () => lookAt(Number(link.dataset.call)));
}
window.addEventListener("resize", () => move(0, 0));

async function start() {
  for (const call of data.calls) {
    for (const part of ["up", "down", "pcm", "out"]) { call[part] = await unpack(call[part]); }
  }
  draw();
}
const ready = start().catch((failure) => { note.textContent = "This browser can't unpack the page's data: " + failure; });
