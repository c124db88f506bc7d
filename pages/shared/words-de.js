// The German sentences of both pages. words-en.js has the same names in the same order.
const NB = "\u00a0";
const two = (n) => String(n).padStart(2, "0");
export const many = (n, one, more) => `${n}${NB}${n === 1 ? one : more}`;
const hours = (n) => `${Math.floor(n / 60)}${NB}h${n % 60 ? `${NB}${two(n % 60)}` : ""}`;
const length = (n) => (n >= 60 ? hours(n) : `${n}${NB}Min.`);
const DAYS = ["So", "Mo", "Di", "Mi", "Do", "Fr", "Sa"];
const MONTHS = ["Januar", "Februar", "März", "April", "Mai", "Juni", "Juli", "August", "September", "Oktober", "November", "Dezember"];

export const WORDS = {
  // Times and lengths
  lengthOf: length,
  days: DAYS,
  date: (y, m, d, w) => `${DAYS[w]} ${two(d)}.${two(m)}.${y}`,
  shortDate: (y, m, d, w) => `${DAYS[w]} ${two(d)}.${two(m)}.`,
  month: (y, m) => `${MONTHS[m - 1]} ${y}`,
  local: "Ortszeit",
  to: "bis",
  zoneNote: (zone, ahead) => `Zeiten sind Ortszeit (${zone}, UTC${ahead}); wo es darauf ankommt, steht UTC, wie auf der Karte, daneben. Tage und Wochen der Regeln beginnen um 00:00 UTC.`,

  // The page
  language: "Sprache",
  cards: "Kartendateien",
  logOut: "Abmelden",
  loggedOut: "Sie sind abgemeldet.",
  busy: "Das Archiv wird gefragt …",
  busyLong: "Noch keine Antwort. Das Archiv beantwortet eine Anfrage nach der anderen.",
  cancel: "Nicht mehr warten",
  retry: "Noch einmal",
  show: "Zeigen",
  foot: "Die Antworten des Archivs sind bewiesen, diese Seite ist nur getestet. Es wendet seine Lesart der Regeln auf die Stunden an, die es hat; das ist keine Rechtsberatung.",

  // What can go wrong
  tooOften: "Zu viele Anfragen. Warten Sie einige Sekunden.",
  noDriver: "Es gibt keinen Fahrer mit dieser Nummer.",
  otherReply: (status, line) => `Das Archiv hat unerwartet geantwortet: ${status} ${line}`,

  // A month
  monthBefore: "Vormonat",
  monthAfter: "Folgemonat",
  wholeMonth: "Monat",
  examinedAll: "Dieser Monat ist ganz geprüft.",
  notExamined: "Nicht geprüft",
  notFrom: (a, b) => `${a} bis ${b}`,
  openEnd: (a) => `ab ${a}`,
  unknown: "Ab dann ist nicht bekannt, was war.",
  crew: "Ein zweiter Fahrer war dabei. Fahren zu zweit wird nicht geprüft.",
  beforeBase: (d) => `Vor ${d}, ab dem geprüft wird, wurde nichts angesehen.`,
  restart: (d) => `Die Prüfung beginnt wieder am nächsten Montag, ${d}, ohne Rücksicht auf das, was vorher war.`,
  unknownGap: (a, b, l) => `Unbekannt sind ${l}, von ${a} bis ${b}.`,
  noLooks: "Wo nichts geprüft ist, wird kein Verstoß gezeigt, ob es einen gab oder nicht.",
  gaps: "Unbekannte Stunden",
  noGaps: "In diesem Monat fehlt keine Stunde, bis zum Ende dessen, was bekannt ist.",
  isWithdrawn: "zurückgezogen",

  // Breaches. No sentence has a subject: none says who is to blame
  breaches: "Verstöße",
  noBreach: "In dem, was von diesem Monat geprüft ist, wurde kein Verstoß gefunden.",
  nothingExamined: "Von diesem Monat wurde nichts geprüft, also kann kein Verstoß gezeigt werden.",
  evidence: "Warum?",
  article: (a, kind) => `Verordnung (EG) Nr. 561/2006, Artikel ${a.replace(/\((\w+)\)/, " Absatz $1")} (${kind})`,
  B1: (a) => `${length(270 + a)} Lenkzeit ohne volle Fahrtunterbrechung von 45 Minuten (oder von 15 und danach 30). Die Grenze ist 4 h 30.`,
  B2: (a) => `Die nächste Ruhezeit von 9 h oder mehr begann ${length(a)} zu spät. Sie muss innerhalb von 15 h ab dem Beginn des Tages beginnen.`,
  B3: (a) => `${3 + a}. tägliche Ruhezeit seit der letzten wöchentlichen, von der weniger als 11 h innerhalb von 24 h ab dem Beginn des Tages lagen. Die Grenze ist 3.`,
  B4: (a) => `${length(600 + a)} Lenkzeit an einem Tag, von einer Ruhezeit von 9 h oder mehr bis zur nächsten. Die Grenze ist 10 h.`,
  B5: (a) => `${length(540 + a)} Lenkzeit an einem Tag, nach zwei anderen Tagen der Woche mit mehr als 9 h. Die Grenze sind zwei solche Tage in einer Woche.`,
  B6: (a) => `${length(3360 + a)} Lenkzeit in einer Woche. Die Grenze ist 56 h.`,
  B7: (a) => `${length(5400 + a)} Lenkzeit in zwei aufeinanderfolgenden Wochen. Die Grenze ist 90 h.`,
  B8: (a) => `Die wöchentliche Ruhezeit begann ${length(a)} zu spät. Sie muss innerhalb von sechs mal 24 h nach dem Ende der letzten beginnen.`,
  B9: () => "In zwei aufeinanderfolgenden Wochen fehlt eine wöchentliche Ruhezeit: nötig sind zwei von 24 h oder mehr, davon eine von 45 h oder mehr, und jede Ruhezeit zählt einmal. Um einen Urlaub zählt ein Kontrolleur vielleicht anders.",
  B10: (a) => `Eine wöchentliche Ruhezeit war um ${length(a)} kürzer als 45 h, und das wurde nicht bis zum Ende der dritten Woche danach am Stück ausgeglichen.`,
  short: { B1: "Fahrtunterbrechung", B2: "Tägliche Ruhezeit", B3: "Reduzierte Ruhezeiten", B4: "Tageslenkzeit", B5: "Verlängerte Tage", B6: "Wochenlenkzeit", B7: "Lenkzeit in zwei Wochen", B8: "Wöchentliche Ruhezeit", B9: "Wochenruhen von zwei Wochen", B10: "Nicht ausgeglichene Ruhezeit" },
  since: "gezählt seit",
  at: "Grenze erreicht",
  late: (l) => `${l} zu spät`,
  lacking: (l) => `${l} fehlen`,
  overBy: (l) => `${l} darüber`,

  // What shows a breach
  ev: { break: "volle Unterbrechung", drive: "Lenken", rest: "Ruhe", day: "Tag", limit: "Ende der 24 h", weekly: "Wochenruhe", reduced: "reduzierte Ruhe", week: "Woche", date: "Tag", from: "Wochen ab", owes: "auszugleichen", main: "Hauptruhe" },
  evHead: ["", "von", "bis", "Dauer", "Summe"],
  evHeadFormal: ["", "von, UTC (Ortszeit)", "bis, UTC (Ortszeit)", "Dauer", "Summe"],
  longest: (within, all) => within === all ? `Die längste Ruhezeit innerhalb dieser 24 h hatte ${within}.` : `Von der längsten Ruhezeit lagen ${within} innerhalb dieser 24 h (von ${all}).`,
  knownTo: (at) => `Bekannt und geprüft bis ${at}. Was danach kommt, ist noch nicht im Archiv.`,
  knownBefore: (at) => `Bekannt bis ${at}, vor diesem Monat.`,
  open: "nicht bekannt",
  within: (l) => `davon ${l} innerhalb der 24 h`,
  inWeeks: (w) => `kann zählen für die Woche ab ${w}`,
  room: (l) => `${l} konnten ausgleichen`,
  atRest: "durchgehend Ruhe",
  byHand: "von Hand",
  byHandHelp: "Von Hand: zum Teil oder ganz von Hand eingetragen.",

  // The chart, and the days in numbers
  chart: "Diagramm",
  chartNote: (ahead) => `Die Stunden sind UTC, wie auf der Karte; Ortszeit ist UTC${ahead}.`,
  rest: "Ruhe",
  available: "Bereitschaft",
  work: "andere Arbeit",
  drive: "Lenken",
  withCrew: "mit zweitem Fahrer",
  notKnown: "unbekannt",
  unseen: "nicht geprüft",
  mark: "Verstoß",
  sum: "gelenkt",
  sheet: "Jeder Tag in Zahlen",
  sheetColumns: ["Tag (UTC)", "Ruhe", "Bereitschaft", "Andere Arbeit", "Lenken", "Zweiter Fahrer", "Unbekannt"],
  notYet: (a, b) => (a === b.slice(0, a.length) ? `${b}: noch nicht` : `${a} bis ${b}: noch nicht`),

  // Rest to be made up
  debts: "Auszugleichende Ruhezeit",
  noDebts: "Keine reduzierte wöchentliche Ruhezeit ist bekannt, die noch auszugleichen ist.",
  debt: (week, n, by) => `${n} für die Woche ab ${week}: am Stück, neben einer Ruhezeit von 9 h oder mehr, vor ${by}.`,
  debtLate: (week, n, by) => `${n} für die Woche ab ${week} waren vor ${by} zu nehmen. Bis dahin wurden sie nicht genommen.`,
  debtBroken: (week, n, by) => `${n} für die Woche ab ${week}, vor ${by}: Es ist nicht bekannt, ob sie genommen wurden, denn die Stunden danach sind nicht bekannt.`,
  debtPaid: (n) => `${n} frühere ausgeglichen`,
  debtWas: (week, n, at) => `${n} für die Woche ab ${week}: ausgeglichen mit der Ruhezeit vom ${at}.`,

  // What is left
  left: "Was noch geht",
  colHeld: "Bekannt bis",
  startAt: "Beginn des Lenkens (Ortszeit)",
  leftAssume: "Angenommen ist Ruhe von der letzten bekannten Stunde bis zum Beginn. Was seitdem gefahren wurde, ist nicht dabei.",
  leftStale: (n) => `Nur bis ${n} Tage vor dem Beginn bekannt: nicht verlässlich`,
  noLeft: "Noch keine Kartendatei.",
  leftBreak: "bis zu einer vollen Unterbrechung von 45 Min.",
  leftDay: "Lenken an diesem Tag",
  leftDay9: "Lenken an diesem Tag (die zwei 10-Stunden-Tage der Woche sind verbraucht)",
  leftWeek: "Lenken in dieser Woche",
  leftTwo: "Lenken in dieser und der letzten Woche",
  leftRest: (t) => `spätester Beginn einer täglichen Ruhezeit von 9 h (von 11 h: ${t})`,
  leftShort: "spätester Beginn einer täglichen Ruhezeit von 9 h (für eine von 11 h ist es zu spät)",
  leftLong: "spätester Beginn der täglichen Ruhezeit von 11 h: die drei kurzen sind verbraucht",
  leftWeekly: "spätester Beginn der Wochenruhe",
  leftUsed: (r, e) => `Reduzierte tägliche Ruhen: ${r} von 3 · Tage über 9 h: ${e} von 2`,
  driven: (n) => `gelenkt ${n}`,
  of: "von",
};
