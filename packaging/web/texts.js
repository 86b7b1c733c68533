// Every text that the page shows or says. A translation is another file of this name; `language` is its language.

const language = "en";
// `ltr` or `rtl`, as the language is written.
const direction = "ltr";
const numbers = new Intl.NumberFormat(language);
const plurals = new Intl.PluralRules(language);
const dates = new Intl.DateTimeFormat(language, { dateStyle: "medium", timeStyle: "short" });

function number(value) {
    return numbers.format(value);
}

/** The form for a number, by the language's rule: `one`, `few`, `many`, `other` and so on. */
function plural(value, forms) {
    return forms[plurals.select(value)] ?? forms.other;
}

function count(value, one, other) {
    return `${number(value)} ${plural(value, { one, other })}`;
}

function bytes(value) {
    const [unit, of] = value < 1e3 ? [count(value, "byte", "bytes"), 0] : value < 1e6 ? ["KB", 1e3] : ["MB", 1e6];
    return of ? `${number(Number((value / of).toPrecision(3)))} ${unit}` : unit;
}

function part(offset, size) {
    return `${bytes(offset)} of ${bytes(size)} (${size === 0 ? 100 : Math.floor((100 * offset) / size)} %)`;
}

const goOn = "Then press “Go on”.";
const anew = "Choose the file anew and send it again.";
const unknowable = "Nobody can tell here whether it arrived. Look where texts go; if it isn’t there, send it again, " +
    "and keep the original until you have seen it.";

export const texts = {
    language,
    direction,

    // The page.
    title: "Upload texts",
    intro: "Send text files in old or new encodings. For each file you see its lines as several encodings read them; " +
        "choose the one that reads right, and only then is it sent.",
    keep: "Keep the original file until you have read the stored text: the server stores only the new text.",
    whose: "Whoever may use this page may see the names of your files, and perhaps read your texts. Ask who runs it.",
    choose: "Choose files",
    drop: "or drop them anywhere on this page",
    files: "Files",
    notRemembered: "This browser lets the page remember nothing: after a reload an upload begins anew.",
    remembers: "This browser remembers the names and links of these uploads, also for whoever uses it next. What is " +
        "stored on the server isn’t touched when they are forgotten.",
    forgetAll: (many) => `Forget ${count(many, "upload", "uploads")}`,
    forget: "Forget them",
    keepThem: "Keep them",

    // Many files.
    kinds: "One choice for many files, which you see in each of them before it is sent:",
    forThese: (name, many) => `${name} for these ${number(many)}`,
    sendAll: (many) => `Upload all ${number(many)} that are chosen`,
    removeDone: (many) => `Remove the ${number(many)} that are finished`,
    likeliest: (name) => `Likeliest: ${name}`,
    chosen: (name) => `Chosen: ${name}`,
    fold: "Show less",
    unfold: "Show all",

    // A file, and what it may be.
    about: (size, time) => `${bytes(size)}, changed ${dates.format(time)}`,
    reading: "Reading the file …",
    unreadable: "The file can’t be read. A folder can’t be sent; choose the files in it.",
    which: "Which one reads right?",
    empty: "(The file is empty.)",
    also: (names) => `the same text as ${names.join(", ")}`,
    byMark: "A byte order mark at the start names this encoding, whatever is chosen.",
    plain: "ASCII alone: every encoding but UTF-16 reads it so.",
    lostHere: (lost, whole) => (lost === 0 ? ""
        : `${count(lost, "character", "characters")} lost (\ufffd)${whole ? "" : " in the part that was looked at"}`),
    lostRun: (text) => `${count(text.length, "lost character", "lost characters")}`,
    leftOut: "lines left out",
    fewer: "Fewer ways to read it",
    more: (many) => `Show ${count(many, "other way", "other ways")} to read it`,
    sampleOnly: "The file is long: 128 KiB of it were looked at for these lines, the first that aren’t plain ASCII. " +
        "What is told of a choice is counted in one MiB.",
    noCount: "Between encodings of one byte a wrong choice makes other letters and loses nothing that can be " +
        "counted. Only reading shows it.",
    binary: (many) => `It has ${count(many, "control character", "control characters")} (\\x00 and such), so perhaps ` +
        "it is no text. Documents of word processors and PDF files have to be saved as plain text first.",
    tooLarge: "The file has more than 1,073,741,824 bytes, the most that the server takes. Cut it behind a line feed " +
        "and send the parts one by one.",
    large: (size) => `Stored as chosen it would have some ${bytes(size)}, and no server of this kind holds a text of ` +
        "more than 268 MB (256 MiB). It would stop on its way, and take the room of other texts until it is deleted. " +
        "Cut it behind a line feed and send the parts one by one.",
    changed: (begun) => `An upload of a file of this name was begun ${dates.format(begun)}, and the file has changed ` +
        "since. That upload isn’t continued; this would be a new one.",
    twin: "Another file of this name, size and time is in the list. This would be an upload of its own.",
    already: (begun) => `This file was uploaded already, ${dates.format(begun)}. This would be another upload.`,

    // How it is stored.
    settings: "How it is stored",
    label: "Send it as",
    to: "Encoding of the stored text",
    mode: "Characters that this encoding lacks",
    html: "become references (&#…;)",
    fatal: "stop the upload",
    name: "Name of the text",
    lacks: (many, to, whole) => {
        const where = whole ? "" : ", in the part that was looked at";
        return many === 0 ? `${to} has every character of it${where}.`
            : `${to} lacks ${count(many, "character", "characters")} of it${where}: each becomes a reference such as ` +
                "&#8364;, or the upload is stopped, as chosen below.";
    },
    send: "Upload",
    doubtLarge: "The text would be too large. Upload it all the same?",
    doubtBinary: "Perhaps it is no text. Upload it all the same?",
    sendIt: "Upload it",
    dontSend: "Don’t upload it",
    leave: "Remove",

    // An upload under way.
    progressOf: (name) => `Progress of ${name}`,
    queued: (before) => "It waits for its turn: " +
        (before === 0 ? "it is the next." : `${count(before, "file", "files")} before it.`),
    creating: "Asking the server for a place …",
    sending: (offset, size) => `Sending: ${part(offset, size)} stored.`,
    waiting: (seconds) => `The line or the server is away. Trying again in ${count(seconds, "second", "seconds")}; ` +
        "what is stored stays.",
    setUp: " This machine has a line: if it goes on like this, the page’s own set-up may be wrong. Tell who runs it.",
    overtaken: (seconds) => "Somebody else sends the same upload, in another window or on another machine perhaps. " +
        `Trying again in ${count(seconds, "second", "seconds")}.`,
    paused: (offset, size) => `Paused: ${part(offset, size)} stored. The page may be closed: choose the file again ` +
        "later, here in this browser, to go on.",
    pausedEarly: "Paused before it began: nothing is stored or remembered yet.",
    stopped: (offset, size) => `Stopped: ${part(offset, size)} stored.`,
    full: "It is tried again by itself each minute.",
    pause: "Pause",
    goOn: "Go on",
    giveUp: "Give up (delete what is stored)",
    begin: "Choose anew",

    // An upload that was begun before.
    begun: (label, to) => `It is sent as ${label} and stored as ${to}.`,
    asking: "Asking the server how far it is …",
    unfinished: (offset, size) => `Not finished: ${part(offset, size)} stored. Choose the same file again to go on.`,
    unasked: "The server can’t be asked now how far it is. Choose the same file again to go on.",
    chooseAgain: "Choose this file again",
    lookAgain: "This is how the upload that was begun reads the file. Go on only if it reads right.",
    isItSame: (name, size, time) => `This page can’t tell whether it is the file that was begun. Its name (${name}), ` +
        `its size (${bytes(size)}) and its time (${dates.format(time)}) are the same; another file may have them ` +
        "too. Read the lines, and go on only if you are sure. If not, delete what is stored and choose anew.",
    otherFile: "This is another file than the one that was begun: name, size and time agree, and its bytes don’t. " +
        "Nothing of it was sent. Choose the right file, or give the upload up.",
    otherLabel: "It reads wrong: delete what is stored and choose anew",
    elsewhere: `Another window of this browser sends this upload. Look there, or close it. ${goOn}`,

    // Deleting.
    sure: (name) => `Delete what the server has stored of ${name}? There is no way back.`,
    delete: "Delete it",
    keepIt: "Keep it",
    deleting: "Asking the server to delete it …",
    undeletable: (why) => `It couldn’t be deleted, and is still on the server. ${why}`,
    undeletableHere: "Deleting is forbidden here: ask who runs the server.",
    afterUndeleted: "“Choose anew” and “Remove” leave it on the server, and forget it here.",

    // The end.
    reads: (offset, size) => `Reading the stored text: ${size > 0 ? part(offset, size) : bytes(offset)} …`,
    offered: (size) => `Uploaded: all ${bytes(size)} of the file. To read the stored text back, and count what was ` +
        "lost, about as much has to come once more.",
    readBack: "Read the stored text",
    skip: "Skip it",
    complete: "Uploaded. Read the stored text before you delete the original.",
    completeUnseen: "Uploaded. Keep the original until somebody has read the stored text.",
    perhaps: `The last byte was sent, and the upload is gone from the server since. ${unknowable}`,
    perhapsLater: "The server had all of it, and it is gone since: it was taken out, or the server’s texts were put " +
        `back from an older copy. ${unknowable}`,
    sendAgain: "Send it again",
    stored: "The first telling lines of the stored text",
    previewed: "The lines as they were chosen",
    lostAtEnd: (lost, chars) => `The stored text has ${count(chars, "character", "characters")}, ` +
        (lost === 0 ? "none of them U+FFFD."
            : `and ${number(lost)} of them ${plural(lost, { one: "is", other: "are" })} U+FFFD or its reference: ` +
                "there bytes weren’t of the encoding and are lost (or the file itself has that character)."),
    references: (many) => `It has ${count(many, "reference", "references")} such as &#8364; for characters that its ` +
        "encoding lacks, or that the file had already.",
    forbidden: "Reading texts back is forbidden here, so this page can’t show what was stored: only the lines that " +
        "you chose. Ask who runs the server.",
    noText: (why) => `The stored text couldn’t be read. ${why}`,
    skipped: "The stored text wasn’t read back.",
    cut: "The line or the server was lost before its end.",
    link: (name) => `Open the stored text of ${name}`,
    wrong: "It reads wrong: delete it and choose anew",

    // What a screen reader says beside.
    saysChoices: (name, many) => `${name}: ${count(many, "way", "ways")} to read it. Choose one.`,
    says: (name, what) => `${name}: ${what}`,
    saysPart: (percent) => `${percent} percent stored`,

    // Why something stopped, and what to do: by the gateway's number (X-Refusal), or else by the status.
    lostLine: `The line or the server was lost. ${goOn}`,
    stranger: "Something else than the text server answered: a page to sign in, perhaps. What is stored stays. " +
        "Reload the page, sign in where it asks, and choose the file again.",
    another: `Under its number the server now has another upload, so this one is gone. ${anew}`,
    changedFile: "The file has changed or can’t be read any more. If it is the same, choose it again to go on. If " +
        "not, give this upload up and choose the file anew.",
    unknown: (status, number_) => `The server refused (status ${status}, number ${number_}). Tell who runs it.`,
    refusals: {
        6: "The text has a character that the chosen encoding of the stored text lacks. What came before that piece " +
            "is stored. Press “Give up”, and choose UTF-8 or references.",
        8: `The upload is gone: it was deleted on the server. ${anew}`,
        9: `Somebody else sends the same upload, in another window perhaps. Close that one. ${goOn}`,
        10: "The file is longer than was announced, so it has changed. Give this upload up and choose the file anew.",
        11: "The server has no place for one more upload, since texts weren’t taken out yet. Wait some minutes, or " +
            "ask who runs it.",
        12: "The file has more than 1 GiB. Cut it behind a line feed and send the parts one by one.",
        17: "The server’s disk space for texts is used up, or this text is larger than all of it. What is stored " +
            "stays. Wait until texts were taken out, or ask who runs it.",
        18: "The server couldn’t read the request: something between here and there changes it. Tell who runs it.",
        19: "The request was too long for the server: perhaps too many cookies. Tell who runs it.",
        20: "Something between here and the server sends bodies in chunks. Tell who runs the proxy.",
        21: "The request’s length was lost or doubled on its way. Tell who runs the proxy.",
        22: "The server speaks another version of the protocol. Tell who runs it.",
        23: "There is no gateway at this address: the page’s endpoint is wrong. Tell who runs it.",
        24: "The server doesn’t allow this step. Tell who runs it.",
        25: "The server refused the kind of the body: something changed it on its way. Tell who runs it.",
        26: "The server found a number missing or wrong in the request. Tell who runs it.",
        27: "The server couldn’t read the name or the labels. Press “Choose anew” and give it another, shorter name.",
        28: "The server doesn’t have this encoding. Press “Choose anew” and choose another one, or ask who runs it.",
        34: "The server knows another length of this upload, so the file has changed. Give this upload up and choose " +
            "the file anew.",
    },
    statuses: {
        0: "The server sends this page elsewhere: perhaps you have to sign in again. Reload the page, sign in, and " +
            "choose the file again.",
        401: "The server asks who you are. Reload the page, sign in, and choose the file again.",
        403: "You may not do this here. Ask who runs the server.",
        404: "There is no gateway at this address. Tell who runs the server.",
        413: "The proxy takes no pieces of this size. Tell who runs it: it has to allow 1 MB and more.",
        500: `The server has a fault of its own. ${goOn} If it comes again, tell who runs it.`,
    },
};
