// Times. A minute is a number, counted from the beginning of 1970 in UTC.

/** The minutes of a day. */
export const DAY = 1440;

const LOCAL = new Intl.DateTimeFormat("en-GB", {
  year: "numeric", month: "2-digit", day: "2-digit", hour: "2-digit", minute: "2-digit", hourCycle: "h23",
});

/**
 * The name of the browser's time zone.
 * @returns {string} as in `Europe/Berlin`
 */
export function zone() {
  return LOCAL.resolvedOptions().timeZone;
}

/**
 * The present minute.
 * @returns {number}
 */
export function now() {
  return Math.floor(Date.now() / 60000);
}

// In UTC

/**
 * The minute of a text, which is taken as UTC.
 * @param {string} text `YYYY-MM-DD`, `YYYY-MM-DD HH:MM` or `YYYY-MM-DDTHH:MM`
 * @returns {number}
 */
export function minuteOf(text) {
  const [year, month, day, hour = 0, minute = 0] = text.split(/[- :T]/).map(Number);
  return Date.UTC(year, month - 1, day, hour, minute) / 60000;
}

/**
 * A minute in UTC.
 * @param {number} minute
 * @returns {string} `YYYY-MM-DD HH:MM`
 */
export function textOf(minute) {
  return new Date(minute * 60000).toISOString().slice(0, 16).replace("T", " ");
}

/**
 * The day of a minute in UTC.
 * @param {number} minute
 * @returns {string} `YYYY-MM-DD`
 */
export function dateOf(minute) {
  return textOf(minute).slice(0, 10);
}

/**
 * The month of a minute in UTC.
 * @param {number} minute
 * @returns {string} `YYYY-MM`
 */
export function monthOf(minute) {
  return textOf(minute).slice(0, 7);
}

/**
 * The day of the week of a minute in UTC.
 * @param {number} minute
 * @returns {number} 0 for Sunday to 6 for Saturday
 */
export function weekdayOf(minute) {
  return new Date(minute * 60000).getUTCDay();
}

/**
 * The first minute of the week of a minute: Monday, 00:00 UTC.
 * @param {number} minute
 * @returns {number}
 */
export function weekOf(minute) {
  return minuteOf(dateOf(minute)) - ((weekdayOf(minute) + 6) % 7) * DAY;
}

/**
 * The first minute of a month, and that of the next one.
 * @param {string} month `YYYY-MM`
 * @returns {[number, number]}
 */
export function rangeOf(month) {
  const [year, number] = month.split("-").map(Number);
  return [Date.UTC(year, number - 1, 1) / 60000, Date.UTC(year, number, 1) / 60000];
}

/**
 * The month that lies some months after another.
 * @param {string} month `YYYY-MM`
 * @param {number} step negative for a month before
 * @returns {string} `YYYY-MM`
 */
export function monthStep(month, step) {
  const [year, number] = month.split("-").map(Number);
  return new Date(Date.UTC(year, number - 1 + step, 1)).toISOString().slice(0, 7);
}

// In local time

/**
 * A minute in the browser's time zone.
 * @param {number} minute
 * @returns {string} `YYYY-MM-DD HH:MM`
 */
export function localText(minute) {
  const fields = Object.fromEntries(LOCAL.formatToParts(new Date(minute * 60000)).map((part) => [part.type, part.value]));
  return `${fields.year}-${fields.month}-${fields.day} ${fields.hour}:${fields.minute}`;
}

/**
 * How many minutes local time is ahead of UTC.
 * @param {number} minute
 * @returns {number}
 */
export function offset(minute) {
  return minuteOf(localText(minute)) - minute;
}

/**
 * The same as a text.
 * @param {number} minute
 * @returns {string} as in `+01:00`
 */
export function offsetText(minute) {
  const ahead = offset(minute);
  const size = Math.abs(ahead);
  const two = (/** @type {number} */ number) => String(number).padStart(2, "0");
  return `${ahead < 0 ? "−" : "+"}${two(Math.floor(size / 60))}:${two(size % 60)}`;
}

/**
 * The minutes that have a local text: none in the hour that spring leaves out, two in the hour that autumn repeats.
 * @param {string} text `YYYY-MM-DD HH:MM` or `YYYY-MM-DDTHH:MM`
 * @returns {number[]} in order
 */
export function minutesOfLocal(text) {
  const asUtc = minuteOf(text);
  const wanted = text.replace("T", " ").slice(0, 16);
  const offsets = new Set([offset(asUtc - DAY), offset(asUtc + DAY)]);
  return [...offsets].map((ahead) => asUtc - ahead).filter((minute) => localText(minute) === wanted).sort((a, b) => a - b);
}

/**
 * Six o'clock, local time, of the day that lies some days after the present one.
 * @param {number} days
 * @returns {number}
 */
function sixInDays(days) {
  const noon = minuteOf(localText(now()).slice(0, 10)) + days * DAY + DAY / 2;
  return minutesOfLocal(`${dateOf(noon)} 06:00`)[0];
}

/**
 * Tomorrow at six, local time.
 * @returns {number}
 */
export function tomorrow() {
  return sixInDays(1);
}

/**
 * The next six o'clock, local time: after midnight it is that of the same day.
 * @returns {number}
 */
export function nextMorning() {
  const today = sixInDays(0);
  return today > now() ? today : tomorrow();
}
