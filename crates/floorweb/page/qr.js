// A text as a QR code (ISO/IEC 18004), without a library: bytes, error correction of level M, versions 1 to 20.

/** For each version, how many codewords of error correction a block has, and how many blocks there are, at level M. */
const CORRECTION = [10, 16, 26, 18, 24, 16, 18, 22, 22, 26, 30, 22, 22, 24, 24, 28, 28, 26, 26, 26];
const BLOCKS = [1, 1, 1, 2, 2, 4, 4, 4, 5, 5, 5, 8, 9, 9, 10, 10, 11, 13, 14, 16];

/** The generators of the codes for the format and for the version. */
const FORMAT = 0x537;
const VERSION = 0x1f25;

/** The powers of 2 in the field of 256 elements, by x^8 + x^4 + x^3 + x^2 + 1, and their exponents. */
const powers = new Uint8Array(255);
const exponents = new Uint8Array(256);
for (let exponent = 0, power = 1; exponent < 255; exponent++) {
  powers[exponent] = power;
  exponents[power] = exponent;
  power = (power << 1) ^ (power & 0x80 ? 0x11d : 0);
}
const times = (a, b) => (a && b ? powers[(exponents[a] + exponents[b]) % 255] : 0);

/** The eight masks: whether a module is turned. */
const MASKS = [
  (x, y) => (x + y) % 2 === 0,
  (x, y) => y % 2 === 0,
  (x) => x % 3 === 0,
  (x, y) => (x + y) % 3 === 0,
  (x, y) => (Math.floor(x / 3) + Math.floor(y / 2)) % 2 === 0,
  (x, y) => ((x * y) % 2) + ((x * y) % 3) === 0,
  (x, y) => (((x * y) % 2) + ((x * y) % 3)) % 2 === 0,
  (x, y) => (((x + y) % 2) + ((x * y) % 3)) % 2 === 0,
];

/**
 * The modules of a text, row by row, each true where it is dark; `undefined` where the text is too long. The mask is
 * the one that the standard prefers, where none is given.
 */
export function qrCode(text, mask) {
  const bytes = new TextEncoder().encode(text);
  const version = versionFor(bytes.length);
  if (!version) return undefined;
  const code = new Code(version);
  code.place(spread(version, codewords(version, bytes)));
  const masks = mask === undefined ? [...MASKS.keys()] : [mask];
  const all = masks.map((one) => code.masked(one));
  const lost = all.map(penalty);
  return all[lost.indexOf(Math.min(...lost))];
}

/** How many modules there are for codewords, beside those that each version has. */
function roomOf(version) {
  const size = 17 + 4 * version;
  const marks = version === 1 ? 0 : Math.floor(version / 7) + 2;
  const alignments = marks ? 25 * (marks * marks - 3) - 10 * (marks - 2) : 0;
  // Three corners with their formats, the two lines of timing, the patterns, and twice the version.
  return size * size - 3 * 64 - 2 * (size - 16) - 31 - alignments - (version < 7 ? 0 : 36);
}

const wordsOf = (version) => Math.floor(roomOf(version) / 8);
const dataOf = (version) => wordsOf(version) - CORRECTION[version - 1] * BLOCKS[version - 1];
const lengthBits = (version) => (version < 10 ? 8 : 16);

function versionFor(length) {
  for (let version = 1; version <= CORRECTION.length; version++) {
    if (4 + lengthBits(version) + 8 * length <= 8 * dataOf(version)) return version;
  }
  return undefined;
}

/** The codewords of the bytes: their mode, their count, themselves, an end, and what fills the rest. */
function codewords(version, bytes) {
  const bits = [];
  const push = (value, count) => {
    for (let bit = count - 1; bit >= 0; bit--) bits.push((value >> bit) & 1);
  };
  push(0b0100, 4);
  push(bytes.length, lengthBits(version));
  for (const byte of bytes) push(byte, 8);
  const most = 8 * dataOf(version);
  push(0, Math.min(4, most - bits.length));
  push(0, (8 - (bits.length % 8)) % 8);
  for (let fill = 0xec; bits.length < most; fill ^= 0xec ^ 0x11) push(fill, 8);
  const words = [];
  for (let at = 0; at < bits.length; at += 8) words.push(parseInt(bits.slice(at, at + 8).join(""), 2));
  return words;
}

/** The codewords in blocks, each with its error correction, one of each block after another. */
function spread(version, data) {
  const count = BLOCKS[version - 1];
  const length = CORRECTION[version - 1];
  const short = Math.floor(data.length / count);
  const longOnes = data.length % count;
  const blocks = [];
  for (let block = 0, at = 0; block < count; block++) {
    const end = at + short + (block < count - longOnes ? 0 : 1);
    blocks.push(data.slice(at, end));
    at = end;
  }
  const checks = blocks.map((block) => remainder(block, length));
  const turns = (lists, most) => [...Array(most).keys()].flatMap((at) => lists.filter((list) => at < list.length).map((list) => list[at]));
  return [...turns(blocks, short + 1), ...turns(checks, length)];
}

/** What is left of a block's polynomial by the generator of so many codewords of error correction. */
function remainder(block, length) {
  let generator = [1];
  for (let root = 0; root < length; root++) {
    const next = [...generator, 0];
    generator.forEach((factor, at) => (next[at + 1] ^= times(factor, powers[root])));
    generator = next;
  }
  const rest = [...block, ...Array(length).fill(0)];
  for (let at = 0; at < block.length; at++) {
    const factor = rest[at];
    generator.forEach((other, place) => (rest[at + place] ^= times(other, factor)));
  }
  return rest.slice(block.length);
}

/** A value with the bits of its cyclic code behind it. */
function withCheck(value, generator, bits) {
  let rest = value << bits;
  for (let bit = 31; bit >= bits; bit--) if ((rest >> bit) & 1) rest ^= generator << (bit - bits);
  return (value << bits) | rest;
}

/** The modules of a version: what each has, and then the codewords. */
class Code {
  constructor(version) {
    this.size = 17 + 4 * version;
    this.modules = Array.from({ length: this.size }, () => Array(this.size).fill(false));
    /** What no mask turns. */
    this.fixed = Array.from({ length: this.size }, () => Array(this.size).fill(false));
    for (let at = 0; at < this.size; at++) {
      this.set(6, at, at % 2 === 0);
      this.set(at, 6, at % 2 === 0);
    }
    for (const [x, y] of [[3, 3], [this.size - 4, 3], [3, this.size - 4]]) this.#pattern(x, y, 4, (away) => away !== 2 && away !== 4);
    const marks = marksOf(version, this.size);
    const last = marks.length - 1;
    marks.forEach((x, column) =>
      marks.forEach((y, row) => {
        const isCorner = (column === 0 && (row === 0 || row === last)) || (column === last && row === 0);
        if (!isCorner) this.#pattern(x, y, 2, (away) => away !== 1);
      }),
    );
    this.#setFormat(0);
    if (version >= 7) this.#setVersion(version);
  }

  set(x, y, isDark) {
    this.modules[y][x] = isDark;
    this.fixed[y][x] = true;
  }

  #pattern(middleX, middleY, reach, isDark) {
    for (let y = middleY - reach; y <= middleY + reach; y++) {
      for (let x = middleX - reach; x <= middleX + reach; x++) {
        const isInside = x >= 0 && y >= 0 && x < this.size && y < this.size;
        if (isInside) this.set(x, y, isDark(Math.max(Math.abs(x - middleX), Math.abs(y - middleY))));
      }
    }
  }

  /** The level and the mask, twice, and the module that is always dark. */
  #setFormat(mask) {
    // Level M is 00.
    const bits = withCheck(mask, FORMAT, 10) ^ 0x5412;
    const bit = (at) => ((bits >> at) & 1) === 1;
    for (let at = 0; at < 15; at++) {
      const along = at < 6 ? at : at < 8 ? at + 1 : undefined;
      if (along !== undefined) this.set(8, along, bit(at));
      else this.set(at === 8 ? 7 : 14 - at, 8, bit(at));
      if (at < 8) this.set(this.size - 1 - at, 8, bit(at));
      else this.set(8, this.size - 15 + at, bit(at));
    }
    this.set(8, this.size - 8, true);
  }

  #setVersion(version) {
    const bits = withCheck(version, VERSION, 12);
    for (let at = 0; at < 18; at++) {
      const isDark = ((bits >> at) & 1) === 1;
      const [along, across] = [Math.floor(at / 3), this.size - 11 + (at % 3)];
      this.set(along, across, isDark);
      this.set(across, along, isDark);
    }
  }

  /** Puts the codewords into the free modules: pairs of columns from the right, up and down in turn. */
  place(words) {
    let at = 0;
    for (let right = this.size - 1, isUp = true; right > 0; right -= right === 8 ? 3 : 2, isUp = !isUp) {
      for (let step = 0; step < this.size; step++) {
        const y = isUp ? this.size - 1 - step : step;
        for (const x of [right, right - 1]) {
          if (this.fixed[y][x]) continue;
          this.modules[y][x] = at < 8 * words.length && ((words[at >> 3] >> (7 - (at & 7))) & 1) === 1;
          at++;
        }
      }
    }
  }

  /** A copy of the modules under a mask, with its format. */
  masked(mask) {
    this.#setFormat(mask);
    return this.modules.map((row, y) => row.map((isDark, x) => isDark !== (!this.fixed[y][x] && MASKS[mask](x, y))));
  }
}

/** Where the middles of the smaller patterns stand, along each side. */
function marksOf(version, size) {
  if (version === 1) return [];
  const count = Math.floor(version / 7) + 2;
  const step = Math.ceil((size - 13) / (2 * count - 2)) * 2;
  return [6, ...Array.from({ length: count - 1 }, (_, at) => size - 7 - (count - 2 - at) * step)];
}

/** How badly modules are read: long runs, blocks of one colour, what looks like a corner, and too many of one colour. */
function penalty(modules) {
  const size = modules.length;
  const lines = [...modules, ...modules.map((_, x) => modules.map((row) => row[x]))];
  let sum = 0;
  for (const line of lines) {
    const text = line.map((isDark) => (isDark ? "1" : "0")).join("");
    for (const { length } of text.match(/0{5,}|1{5,}/g) ?? []) sum += length - 2;
    for (let at = 0; at + 11 <= size; at++) if (["10111010000", "00001011101"].includes(text.slice(at, at + 11))) sum += 40;
  }
  for (let y = 0; y + 1 < size; y++) {
    for (let x = 0; x + 1 < size; x++) {
      const [a, b, c, d] = [modules[y][x], modules[y][x + 1], modules[y + 1][x], modules[y + 1][x + 1]];
      if (a === b && b === c && c === d) sum += 3;
    }
  }
  const dark = modules.flat().filter(Boolean).length;
  return sum + 10 * Math.floor(Math.abs((20 * dark) / (size * size) - 10));
}
