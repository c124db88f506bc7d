// The driver's German sentences. words-en.js has the same names in the same order.

export const WORDS = {
  // The page
  yourHours: "Ihre Stunden",
  yourKey: "Ihr Schlüssel",
  yourKeyHelp: "Sie haben ihn vom Büro bekommen. Er bleibt in diesem Tab, bis Sie sich abmelden oder den Tab schließen.",
  showHours: "Meine Stunden zeigen",
  program: (program) => `Die Antworten sind von ${program}.`,

  // What can go wrong
  badKey: "Diesen Schlüssel hat kein Fahrer. Prüfen Sie ihn, oder fragen Sie Ihr Büro.",
  badMonth: "Das ist kein Monat von 2000-01 bis 2099-12, wie etwa 2024-03.",
  waits: (seconds) => `Über Ihre Verbindung sind zu viele Anfragen gekommen. Die Seite wartet ${seconds} Sekunden und fragt dann noch einmal.`,
  isDown: "Das Archiv ist im Augenblick nicht erreichbar. Was gespeichert war, ist nicht verloren. Versuchen Sie es in einer Minute noch einmal.",
  noConnection: "Es gibt keine Verbindung zum Archiv. Was gespeichert war, ist nicht verloren. Versuchen Sie es später noch einmal, oder fragen Sie Ihr Büro.",
  unreadable: "Das Archiv hat etwas geantwortet, was diese Seite nicht lesen kann; sie zeigt nichts davon. Laden Sie die Seite neu. Hilft das nicht, sagen Sie es Ihrem Büro.",
  keepsChanging: "Das Archiv wurde bei jeder Abfrage gerade geändert. Versuchen Sie es in einer Minute noch einmal.",
  stopped: "Die Seite wartet nicht mehr.",

  // What is left
  leftOld: (days, held) => `Die letzte bekannte Stunde ist ${held}, ${days} Tage vor diesem Beginn. Darum lässt sich nicht sagen, was noch geht. Lassen Sie Ihre Karte auslesen.`,
  leftBroken: (from, to) => `Was noch geht, lässt sich nicht sagen, denn was von ${from} bis ${to} bekannt ist, ist nicht geprüft.`,
  leftNone: "Von diesem Beginn an lässt sich nicht sagen, was noch geht.",
  leftComing: "Auch wenn nicht mehr gefahren wird:",
  badStart: "Diese Zeit gibt es nicht: die Uhr wird umgestellt.",

  // A month
  moreBreaches: (count) => (count === 1 ? "1 weiterer Verstoß in diesem Monat" : `${count} weitere Verstöße in diesem Monat`),
  others: (count) => `Andere Monate${count === 0 ? "" : count === 1 ? " (1 Verstoß)" : ` (${count} Verstöße)`}`,
  chartName: "Diagramm des Monats",
  noHours: "Von diesem Monat ist nichts bekannt.",
  entered: (count) => `Von Hand eingetragen in diesem Monat: ${count}`,
  handover: (month) => `Alles von ${month} als eine Datei (.tar)`,
  files: "Ihre Kartendateien",
  filesHelp: "Was von Ihrer Karte gelesen wurde, dürfen Sie als Kopie haben.",
  fileName: (number, start, past) => `Datei ${number}: ${start} bis ${past}`,

  // Uploads
  upload: "Eine Kartendatei senden",
  dropHere: "Sie können Dateien auch hierher ziehen. Die Signatur einer Datei wird nicht geprüft.",
  sent: {
    waiting: (name) => `${name} wartet.`,
    sending: (name) => `${name} wird gesendet …`,
    added: (name, number) => `${name} wurde aufgenommen, als Ihre Datei Nummer ${number}.`,
    repeated: (name) => `${name} bringt nichts Neues. Das Archiv hatte schon alles davon.`,
    broken: (name) => `${name} ist beschädigt oder keine Datei einer Fahrerkarte. Nichts davon wurde aufgenommen.`,
    contradictsItself: (name) => `${name} widerspricht sich selbst. Nichts davon wurde aufgenommen. Geben Sie sie Ihrem Büro.`,
    notYours: (name) => `${name} ist von der Karte eines anderen Fahrers. Nichts davon wurde aufgenommen.`,
    contradicts: (name, at) => `${name} widerspricht dem, was das Archiv für ${at} hat. Nichts davon wurde aufgenommen. Sagen Sie es Ihrem Büro.`,
    isFull: (name) => `${name} wurde nicht aufgenommen: Das Archiv hat keinen Platz mehr für Ihre Dateien. Sagen Sie es Ihrem Büro.`,
    tooLarge: (name) => `${name} ist zu groß: Eine Kartendatei hat höchstens 262.144 Bytes. Nichts davon wurde aufgenommen.`,
    isShut: (name) => `${name} wurde nicht aufgenommen: Das Büro nimmt hier keine Dateien von Fahrern an.`,
    sendAgain: (name) => `Es ist nicht bekannt, ob ${name} aufgenommen wurde. Senden Sie sie später noch einmal: Wenn ja, dann bringt sie nichts Neues.`,
    notSent: (name) => `${name} wurde nicht gesendet: Über Ihre Verbindung sind zu viele Anfragen gekommen. Warten Sie eine Minute, und senden Sie sie noch einmal.`,
    badKey: (name) => `${name} wurde nicht aufgenommen: Ihren Schlüssel gibt es nicht mehr. Fragen Sie Ihr Büro nach dem neuen.`,
    refused: (name) => `${name} wurde nicht aufgenommen.`,
  },
};
