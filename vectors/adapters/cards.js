// An example of a program that answers lines: a reader of activity data, for the sets `words` and `chains`. The last lines are all that
// such a program needs to be tried: `python3 run.py --lines --set words --set chains node adapters/cards.js`.
"use strict";
const readline = require("readline");

const ACTIVITIES = ["rest", "available", "work", "drive"];
const FIRST_DAY = 10959, LAST_DAY = 47481; // 2000-01-03 and 2099-12-31

class Fault extends Error {
  constructor(fault) {
    super(fault.fault);
    this.fault = fault;
  }
}

// The mark of a word, or null where the activity isn't known.
function markOf(word) {
  const crew = word >> 14 & 1, out = word >> 13 & 1, activity = ACTIVITIES[word >> 11 & 3];
  if (out) return crew ? activity : null;
  return crew ? `${activity} crew` : activity;
}

// The length, the day and the words of a record, where the records before it have a length together.
function recordAt(buffer, place, before) {
  const size = buffer.length;
  const number = (at) => buffer[at % size] * 256 + buffer[(at + 1) % size];
  const length = number(place + 2);
  if (length < 12 || length % 2 || length > size) throw new Fault({fault: "C9", place});
  if (before + length > size) throw new Fault({fault: "C10", place});
  const day = Math.floor((number(place + 4) * 65536 + number(place + 6)) / 86400);
  if (day < FIRST_DAY || day > LAST_DAY) throw new Fault({fault: "C11", place});
  const words = [];
  for (let at = place + 12; at < place + length; at += 2) {
    const word = number(at), minute = word & 2047;
    if (minute >= 1440) throw new Fault({fault: "C12", place: at % size});
    if (words.length && minute < (words[words.length - 1] & 2047)) throw new Fault({fault: "C13", place: at % size});
    words.push(word);
  }
  return {length, day, words};
}

// The spans that a value gives.
function spansOf(value) {
  if (value.length < 16) throw new Fault({fault: "C7"});
  const oldest = value.readUInt16BE(0), newest = value.readUInt16BE(2), buffer = value.subarray(4);
  if (Math.max(oldest, newest) >= buffer.length) throw new Fault({fault: "C8"});
  const at = (place) => buffer[place % buffer.length];
  const marks = new Map();
  let twice = Infinity;
  let isDone = oldest === newest && at(oldest + 2) === 0 && at(oldest + 3) === 0;
  for (let place = oldest, before = 0; !isDone;) {
    const {length, day, words} = recordAt(buffer, place, before);
    isDone = place === newest;
    words.slice(0, isDone ? -1 : undefined).forEach((word, turn) => {
      const mark = markOf(word), past = turn + 1 < words.length ? words[turn + 1] & 2047 : 1440;
      for (let minute = 1440 * day + (word & 2047); mark && minute < 1440 * day + past; minute++) {
        if (marks.has(minute) && marks.get(minute) !== mark) twice = Math.min(twice, minute);
        marks.set(minute, mark);
      }
    });
    [place, before] = [(place + length) % buffer.length, before + length];
  }
  if (twice !== Infinity) throw new Fault({fault: "C14", minute: twice});
  const spans = [];
  for (const [minute, mark] of [...marks].sort(([one], [other]) => one - other)) {
    const last = spans[spans.length - 1];
    if (last && last[1] === minute && last[2] === mark) last[1] = minute + 1;
    else spans.push([minute, minute + 1, mark]);
  }
  return spans;
}

// What is expected of a value.
function answer(given) {
  const pieces = given.value.map((piece) => typeof piece === "string" ? piece : piece.byte.repeat(piece.times));
  try {
    return {spans: spansOf(Buffer.from(pieces.join(""), "hex"))};
  } catch (fault) {
    if (fault instanceof Fault) return fault.fault;
    throw fault;
  }
}

// Each line is answered with a line.
readline.createInterface({input: process.stdin}).on("line", (line) => {
  const {id, input} = JSON.parse(line);
  process.stdout.write(JSON.stringify({id, expected: answer(input)}) + "\n");
});
