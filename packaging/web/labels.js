// Which label a file may have. Each encoding of the gateway decodes a sample of its bytes by the browser's own
// `TextDecoder`, and a rule that knows no language says how strange each text is. No DOM, nothing is sent.

/** The gateway's encodings, by their numbers. */
export const ENCODINGS = [
    "UTF-8", "UTF-16BE", "UTF-16LE", "Shift_JIS", "EUC-JP", "ISO-2022-JP", "IBM866", "ISO-8859-2", "ISO-8859-5",
    "ISO-8859-15", "KOI8-R", "macintosh", "windows-1250", "windows-1251", "windows-1252", "windows-1253",
    "windows-1254", "windows-1255", "windows-1256", "windows-1257", "windows-1258",
];
/** Those that a stored text may have: by the standard nothing is encoded as UTF-16. */
export const OUTPUTS = ENCODINGS.filter((it) => !it.startsWith("UTF-16"));

/** The languages of encodings that have mostly one, so that a screen reader reads their lines as such. */
export const LANGUAGES = {
    "Shift_JIS": "ja", "EUC-JP": "ja", "ISO-2022-JP": "ja", "IBM866": "ru", "ISO-8859-5": "ru", "KOI8-R": "ru",
    "windows-1251": "ru", "windows-1253": "el", "windows-1254": "tr", "windows-1255": "he", "windows-1256": "ar",
    "windows-1258": "vi",
};

const MARKS = { "UTF-8": [0xef, 0xbb, 0xbf], "UTF-16BE": [0xfe, 0xff], "UTF-16LE": [0xff, 0xfe] };
// What a lost character and a control or private one add to a text's strangeness; a strange neighbour adds 1.
const LOST = 20;
const ODD = 5;
// Kinds of characters, in the lower three bits of a class. The script of a letter is above them.
const [BLANK, NUMBER, SYMBOL, LETTER, SMALL, CAPITAL] = [1, 2, 3, 4, 5, 6];
const NO_CHARACTER = 7;
// The class of most characters that come, and the last letter of the alphabets below.
const SMALL_ASCII = (2 << 3) | SMALL;
const LAST_COUNTED = 0x6ff;
const SCRIPTS = ["Latn", "Cyrl", "Grek", "Hebr", "Arab"].map((it) => new RegExp(`\\p{scx=${it}}`, "u"));
const JAPANESE = /[\p{scx=Hani}\p{scx=Hira}\p{scx=Kana}\uff21-\uff3a\uff41-\uff5a]/u;
const ORDINALS = "\u00aa\u00ba";
const classes = new Uint16Array(0x110000);

// The letters beside ASCII of some languages, for texts that are equally strange: those of one language fit together.
const ALPHABETS = [
    "àâæçéèêëîïôœùûüÿ", "äöüßé", "áéíñóúüªº", "áâãàçéêíóôõúüªº", "àèéìíîòóùúç", "åäöæøéüà", "áéíóúýðþæö",
    "ëïéèüöäáóíç",
    "ąćęłńóśźż", "áčďéěíňóřšťúůýžäľĺôŕ", "áéíóöőúüű", "ăâîșțşţ", "čćđšž", "çğıiöşüâîû", "ąčęėįšųūž", "āčēģīķļņšūž",
    "äõöüšž", "àáâãèéêìíòóôõùúýăđĩũơư", "абвгдеёжзийклмнопрстуфхцчшщъыьэюя", "абвгґдеєжзиіїйклмнопрстуфхцчшщьюяўё",
    "абвгдђежзијклљмнњопрстћуфхцчџшѓѕќ", "αβγδεζηθικλμνξοπρσςτυφχψωάέήίόύώϊϋΐΰ",
    "אבגדהוזחטיךכלםמןנסעףפץצקרשת", "ءآأؤإئابةتثجحخدذرزسشصضطظعغفقكلمنهويىپچژگکیـ",
].map((it) => new Set(it));

/** The encoding whose byte order mark a file begins with. It overrides each label. */
function marked(bytes) {
    return Object.keys(MARKS).find((name) => MARKS[name].every((byte, place) => bytes[place] === byte));
}

/**
 * The text of some bytes of a file. At its `start` a byte order mark is dropped; if its end isn't among them, an
 * unfinished character isn't lost.
 */
export function decoded(name, bytes, { start = true, end = true } = {}) {
    return new TextDecoder(name, { ignoreBOM: !start }).decode(bytes, { stream: !end });
}

/** How many characters were lost: each fault of a decoder is a U+FFFD. */
export function losses(text) {
    return text.split("\ufffd").length - 1;
}

/**
 * The choices for some bytes of a file, the likeliest first: a choice is a text, with the names of all encodings that
 * give it. Of equally strange ones that comes first whose letters are most of one language.
 */
export function rank(bytes, { start = true, end = true } = {}) {
    const mark = start ? marked(bytes) : undefined;
    const choices = [];
    for (const name of mark ? [mark] : ENCODINGS) {
        const text = decoded(name, bytes, { start, end });
        const same = choices.find((it) => it.text === text);
        if (same) {
            same.names.push(name);
        } else {
            choices.push({ names: [name], text, lost: losses(text), marked: Boolean(mark) });
        }
    }
    for (const choice of choices) {
        Object.assign(choice, measured(choice.text));
        choice.strangeness -= isFaultyUtf8(choice) ? LOST * choice.lost : 0;
        choice.names.sort((one, other) => preference(one) - preference(other));
    }
    return choices.sort(before);
}

function before(one, other) {
    const [name, otherName] = [one.names[0], other.names[0]];
    return one.strangeness - other.strangeness || one.foreign - other.foreign
        || preference(name) - preference(otherName);
}

/** Whether it is UTF-8 with fewer faults than characters of several bytes, which no other encoding has by chance. */
function isFaultyUtf8({ names, text, lost }) {
    return names[0] === "UTF-8" && (text.match(/[^\0-\x7f\ufffd]/gu) ?? []).length > lost;
}

/** Of names that give the same text so far, those of Windows first: more of their codes have a character. */
function preference(name) {
    const first = ["UTF-8", "windows-1252"].indexOf(name);
    return first >= 0 ? first : name.startsWith("windows") ? 2 : 3;
}

/**
 * How strange a text is: what is lost, what no text has, and neighbours that seldom meet in words; and how many of its
 * letters are foreign in the language that has most of them.
 */
function measured(text) {
    const counts = new Uint32Array(LAST_COUNTED + 1);
    let [sum, last] = [0, BLANK];
    for (let place = 0; place < text.length; place += 1) {
        const code = text.codePointAt(place);
        const now = classes[code] || (classes[code] = classOf(code));
        if (code > 0x7f || now !== SMALL_ASCII || last !== SMALL_ASCII) {
            sum += oddness(code, kindOf(now)) + (meets(last, now, code) ? 1 : 0);
        }
        if (code > 0x7f && code <= LAST_COUNTED) {
            counts[code] += 1;
        }
        last = now;
        place += code > 0xffff ? 1 : 0;
    }
    return { strangeness: sum, foreign: foreign(counts) };
}

/** How odd a character is by itself. */
function oddness(code, kind) {
    if (code === 0xfffd) {
        return LOST + 1;
    }
    return kind === NO_CHARACTER || isOdd(code) ? ODD : kind === SYMBOL && code > 0x7f ? 1 : 0;
}

/** Whether two neighbours are strange: another script, a capital behind a small letter, a symbol in a word. */
function meets(last, now, code) {
    const [left, right] = [kindOf(last), kindOf(now)];
    if (isLetter(left) && isLetter(right)) {
        return last >> 3 !== now >> 3 || (left === SMALL && right === CAPITAL);
    }
    if (isLetter(left)) {
        return (right === SYMBOL || right === NUMBER) && code > 0x7f;
    }
    return isLetter(right) && left === SYMBOL;
}

function isLetter(kind) {
    return kind >= LETTER && kind <= CAPITAL;
}

function kindOf(known) {
    return known & 7;
}

/** Whether it is a control or of private use. An escape isn't: other decoders find many in ISO-2022-JP. */
function isOdd(code) {
    const control = code < 0x20 && code !== 0x09 && code !== 0x0a && code !== 0x0d && code !== 0x1b;
    return control || (code >= 0x80 && code <= 0x9f) || (code >= 0xe000 && code <= 0xf8ff);
}

function classOf(code) {
    const char = String.fromCodePoint(code);
    if (/\p{Cn}/u.test(char)) {
        return NO_CHARACTER;
    }
    if (!/\p{L}/u.test(char)) {
        return /\p{N}/u.test(char) ? NUMBER : /\p{S}/u.test(char) ? SYMBOL : BLANK;
    }
    const kind = /\p{Ll}/u.test(char) ? SMALL : /\p{Lu}/u.test(char) ? CAPITAL : LETTER;
    return (scriptOf(char) << 3) | kind;
}

/**
 * The number of a letter's script: 1 for those written together in Japanese, 0 for one that stands in any. What isn't
 * listed is told apart by its place in Unicode.
 */
function scriptOf(char) {
    if (JAPANESE.test(char)) {
        return 1;
    }
    const place = SCRIPTS.findIndex((it) => it.test(char));
    return ORDINALS.includes(char) ? 0 : place >= 0 ? place + 2 : 8 + (char.codePointAt(0) >> 8);
}

/** How many letters beside ASCII are none of the language that has most of them, and how many are capitals. */
function foreign(counts) {
    const found = Array.from(counts.entries()).filter(([code, many]) => many > 0 && isLetter(kindOf(classes[code])));
    const letters = found.map(([code, many]) => [String.fromCharCode(code).toLowerCase()[0], many]);
    const outside = (alphabet) => letters.reduce((sum, [it, many]) => sum + (alphabet.has(it) ? 0 : many), 0);
    const capitals = found.filter(([code]) => kindOf(classes[code]) === CAPITAL).reduce((sum, it) => sum + it[1], 0);
    return capitals + Math.min(...ALPHABETS.map(outside));
}
