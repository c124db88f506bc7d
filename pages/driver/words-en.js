// The driver's English sentences. words-de.js has the same names in the same order.

export const WORDS = {
  // The page
  yourHours: "Your hours",
  yourKey: "Your key",
  yourKeyHelp: "The office has given it to you. It stays in this tab until you log out or close the tab.",
  showHours: "Show my hours",
  program: (program) => `The replies are from ${program}.`,

  // What can go wrong
  badKey: "No driver has this key. Check it, or ask your office.",
  badMonth: "This isn't a month from 2000-01 to 2099-12, such as 2024-03.",
  waits: (seconds) => `Too many requests have come from your connection. The page waits ${seconds} seconds, and then asks again.`,
  isDown: "The archive can't be reached at the moment. Nothing that was saved is lost. Try again in a minute.",
  noConnection: "There is no connection to the archive. Nothing that was saved is lost. Try again later, or ask your office.",
  unreadable: "The archive gave a reply that this page can't read, so it shows nothing of it. Reload the page. If that doesn't help, tell your office.",
  keepsChanging: "The archive was changed each time it was asked. Try again in a minute.",
  stopped: "The page has stopped waiting.",

  // What is left
  leftOld: (days, held) => `The last known hour is ${held}, ${days} days before this start. So nothing can be said of what is left. Bring your card to be read.`,
  leftBroken: (from, to) => `Nothing can be said of what is left, since what is known from ${from} to ${to} isn't examined.`,
  leftNone: "Nothing can be said of what is left from this start.",
  leftComing: "Even if nothing more is driven:",
  badStart: "This time doesn't exist: the clocks are changed.",

  // A month
  moreBreaches: (count) => `${count} more ${count === 1 ? "breach" : "breaches"} in this month`,
  others: (count) => `Other months${count === 0 ? "" : count === 1 ? " (1 breach)" : ` (${count} breaches)`}`,
  chartName: "Chart of the month",
  noHours: "Nothing of this month is known.",
  entered: (count) => `Entered by hand in this month: ${count}`,
  handover: (month) => `All of ${month} as one file (.tar)`,
  files: "Your card files",
  filesHelp: "You may have a copy of what was read from your card.",
  fileName: (number, start, past) => `File ${number}: ${start} to ${past}`,

  // Uploads
  upload: "Send a card file",
  dropHere: "You can also drop files here. The signature of a file isn't verified.",
  sent: {
    waiting: (name) => `${name} waits.`,
    sending: (name) => `${name} is being sent …`,
    added: (name, number) => `${name} was added: it is your file number ${number}.`,
    repeated: (name) => `${name} has nothing new. The archive already had all of it.`,
    broken: (name) => `${name} is broken, or isn't the file of a driver card. Nothing of it was taken.`,
    contradictsItself: (name) => `${name} contradicts itself. Nothing of it was taken. Give it to your office.`,
    notYours: (name) => `${name} is from another driver's card. Nothing of it was taken.`,
    contradicts: (name, at) => `${name} contradicts what the archive has for ${at}. Nothing of it was taken. Tell your office.`,
    isFull: (name) => `${name} wasn't taken: the archive has no more room for your files. Tell your office.`,
    tooLarge: (name) => `${name} is too large: a card file has at most 262,144 bytes. Nothing of it was taken.`,
    isShut: (name) => `${name} wasn't taken: the office doesn't take files from drivers here.`,
    sendAgain: (name) => `It isn't known whether ${name} was taken. Send it again later: if it was, you will see that it has nothing new.`,
    notSent: (name) => `${name} wasn't sent: too many requests have come from your connection. Wait a minute, and send it again.`,
    badKey: (name) => `${name} wasn't taken: your key is no longer known. Ask your office for the new one.`,
    refused: (name) => `${name} wasn't taken.`,
  },
};
