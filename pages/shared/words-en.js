// The English sentences of both pages. words-de.js has the same names in the same order.
const NB = "\u00a0";
const two = (n) => String(n).padStart(2, "0");
export const many = (n, one, more) => `${n}${NB}${n === 1 ? one : more}`;
const hours = (n) => `${Math.floor(n / 60)}${NB}h${n % 60 ? `${NB}${two(n % 60)}` : ""}`;
const length = (n) => (n >= 60 ? hours(n) : `${n}${NB}min`);
const ordinal = (n) => n + ((Math.floor(n / 10) % 10 !== 1 && ["th", "st", "nd", "rd"][n % 10]) || "th");
const DAYS = ["Sun", "Mon", "Tue", "Wed", "Thu", "Fri", "Sat"];
const MONTHS = ["January", "February", "March", "April", "May", "June", "July", "August", "September", "October", "November", "December"];

export const WORDS = {
  // Times and lengths
  lengthOf: length,
  days: DAYS,
  date: (y, m, d, w) => `${DAYS[w]} ${d}${NB}${MONTHS[m - 1].slice(0, 3)} ${y}`,
  shortDate: (y, m, d, w) => `${DAYS[w]} ${d}${NB}${MONTHS[m - 1].slice(0, 3)}`,
  month: (y, m) => `${MONTHS[m - 1]} ${y}`,
  local: "local",
  to: "to",
  zoneNote: (zone, ahead) => `Times are local (${zone}, UTC${ahead}), with UTC, as on the card, beside them where it counts. Days and weeks of the rules begin at 00:00 UTC.`,

  // The page
  language: "Language",
  cards: "Card files",
  logOut: "Log out",
  loggedOut: "You are logged out.",
  busy: "Asking the archive …",
  busyLong: "Still waiting. The archive answers one request after another.",
  cancel: "Stop waiting",
  retry: "Try again",
  show: "Show",
  foot: "The archive's replies are proved, this page is only tested. It applies its reading of the rules to the hours that it has; this is no legal advice.",

  // What can go wrong
  tooOften: "Too many requests. Wait a few seconds, and try again.",
  noDriver: "There is no driver with this number.",
  otherReply: (status, line) => `The archive gave an unexpected reply: ${status} ${line}`,

  // A month
  monthBefore: "Month before",
  monthAfter: "Month after",
  wholeMonth: "Month",
  examinedAll: "This month is examined as a whole.",
  notExamined: "Not examined",
  notFrom: (a, b) => `${a} to ${b}`,
  openEnd: (a) => `from ${a} on`,
  unknown: "It isn't known what happened from then on.",
  crew: "There was a second driver. Driving with a second driver isn't examined.",
  beforeBase: (d) => `Before ${d}, from which this driver is examined, nothing was looked at.`,
  restart: (d) => `The examination begins again on the next Monday, ${d}, without regard to what came before.`,
  unknownGap: (a, b, l) => `Unknown are the ${l} from ${a} to ${b}.`,
  noLooks: "Where nothing is examined no breach is shown, whether there was one or not.",
  gaps: "Unknown hours",
  noGaps: "No hour of this month is missing, up to the end of what is known.",
  isWithdrawn: "withdrawn",

  // Breaches. No sentence has a subject: none says who is to blame
  breaches: "Breaches",
  noBreach: "No breach was found in what was examined of this month.",
  nothingExamined: "Nothing of this month was examined, so no breach can be shown.",
  evidence: "Why?",
  article: (a, kind) => `Regulation (EC) No 561/2006, Article ${a} (${kind})`,
  B1: (a) => `${length(270 + a)} of driving without a full break of 45 minutes (or of 15 and then 30). The limit is 4 h 30.`,
  B2: (a) => `The next rest of 9 h or more began ${length(a)} too late. It has to begin within 15 h of the start of the day.`,
  B3: (a) => `${ordinal(3 + a)} daily rest since the last weekly rest of which less than 11 h lay within 24 h of the start of the day. The limit is 3.`,
  B4: (a) => `${length(600 + a)} of driving in one day, from one rest of 9 h or more to the next. The limit is 10 h.`,
  B5: (a) => `${length(540 + a)} of driving in one day, after two other days of the week with more than 9 h. The limit is two such days in a week.`,
  B6: (a) => `${length(3360 + a)} of driving in one week. The limit is 56 h.`,
  B7: (a) => `${length(5400 + a)} of driving in two consecutive weeks. The limit is 90 h.`,
  B8: (a) => `The weekly rest began ${length(a)} too late. It has to begin within six times 24 h of the end of the last one.`,
  B9: () => "Two consecutive weeks have a weekly rest too few: they need two of 24 h or more, one of them of 45 h or more, and each rest counts once. Around leave an officer may count otherwise.",
  B10: (a) => `A weekly rest was ${length(a)} short of 45 h, and this wasn't made up in one piece by the end of the third week after it.`,
  short: { B1: "Break", B2: "Daily rest", B3: "Reduced daily rests", B4: "Daily driving", B5: "Extended days", B6: "Weekly driving", B7: "Driving in two weeks", B8: "Weekly rest", B9: "Weekly rests of two weeks", B10: "Rest not made up" },
  since: "counted since",
  at: "limit reached",
  late: (l) => `${l} late`,
  lacking: (l) => `${l} lacking`,
  overBy: (l) => `${l} over`,

  // What shows a breach
  ev: { break: "full break", drive: "driving", rest: "rest", day: "day", limit: "24 h end", weekly: "weekly rest", reduced: "reduced rest", week: "week", date: "day", from: "weeks from", owes: "to make up", main: "main rest" },
  evHead: ["", "from", "to", "length", "sum"],
  evHeadFormal: ["", "from, UTC (local)", "to, UTC (local)", "length", "sum"],
  longest: (within, all) => within === all ? `The longest rest within these 24 h had ${within}.` : `Of the longest rest within these 24 h, ${within} lay in them (of ${all}).`,
  knownTo: (at) => `Known and examined to ${at}. What comes after it isn't in the archive yet.`,
  knownBefore: (at) => `Known to ${at}, before this month.`,
  open: "not known",
  within: (l) => `of which ${l} within the 24 h`,
  inWeeks: (w) => `may count for the week from ${w}`,
  room: (l) => `${l} could make up`,
  atRest: "at rest throughout",
  byHand: "by hand",
  byHandHelp: "By hand: entered by hand, in part or whole.",

  // The chart, and the days in numbers
  chart: "Chart",
  chartNote: (ahead) => `Hours are UTC, as on the card; local time is UTC${ahead}.`,
  rest: "rest",
  available: "available",
  work: "other work",
  drive: "driving",
  withCrew: "with a second driver",
  notKnown: "unknown",
  unseen: "not examined",
  mark: "breach",
  sum: "driven",
  sheet: "Each day in numbers",
  sheetColumns: ["Day (UTC)", "Rest", "Available", "Other work", "Driving", "Second driver", "Unknown"],
  notYet: (a, b) => (a === b.slice(0, a.length) ? `${b}: not yet` : `${a} to ${b}: not yet`),

  // Rest to be made up
  debts: "Rest to be made up",
  noDebts: "No reduced weekly rest is known that still has to be made up.",
  debt: (week, n, by) => `${n} for the week from ${week}: in one piece, beside a rest of 9 h or more, before ${by}.`,
  debtLate: (week, n, by) => `${n} for the week from ${week} had to be taken before ${by}. It wasn't taken by then.`,
  debtBroken: (week, n, by) => `${n} for the week from ${week}, before ${by}: it isn't known whether it was taken, since the hours after it aren't known.`,
  debtPaid: (n) => many(n, "earlier one made up", "earlier ones made up"),
  debtWas: (week, n, at) => `${n} for the week from ${week}: made up with the rest of ${at}.`,

  // What is left
  left: "What is left",
  colHeld: "Known to",
  startAt: "Start of driving (local time)",
  leftAssume: "Assumes rest from the last known hour until the start. Whatever was driven since isn't in it.",
  leftStale: (n) => `Known only to ${n} days before the start: don't rely on it`,
  noLeft: "No card file yet.",
  leftBreak: "until a full break of 45 min",
  leftDay: "of driving in the day",
  leftDay9: "of driving in the day (10 h twice a week, both used)",
  leftWeek: "of driving this week",
  leftTwo: "of driving in this week and the last",
  leftRest: (t) => `latest start of a daily rest of 9 h (of 11 h: ${t})`,
  leftShort: "latest start of a daily rest of 9 h (it is too late for one of 11 h)",
  leftLong: "latest start of the daily rest of 11 h: the three short rests are used",
  leftWeekly: "latest start of the weekly rest",
  leftUsed: (r, e) => `Reduced daily rests: ${r} of 3 · days over 9 h: ${e} of 2`,
  driven: (n) => `driven ${n}`,
  of: "of",
};
