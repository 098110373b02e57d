// What a file is by its first bytes: a capture that is read, text, or what is taken for one of them, with what to do then.

const latin = (text) => Array.from(text, (it) => it.charCodeAt(0));
const UNPACK = "unpack it first";
const CONVERT = "save it as pcap with a program that reads it, such as Wireshark";

// How files begin that are taken for captures or scripts, what they are, and what to do.
const KNOWN = [
    [[0x1f, 0x8b], "a gzip file", UNPACK],
    [latin("PK\x03\x04"), "a zip file", UNPACK],
    [latin("BZh"), "a bzip2 file", UNPACK],
    [[0xfd, ...latin("7zXZ")], "an xz file", UNPACK],
    [[0x28, 0xb5, 0x2f, 0xfd], "a Zstandard file", UNPACK],
    [[...latin("7z"), 0xbc, 0xaf], "a 7z file", UNPACK],
    [latin("Rar!"), "a RAR file", UNPACK],
    [latin("TRSNIFF data"), "a capture of the Sniffer", CONVERT],
    [latin("snoop\0"), "a capture of snoop", CONVERT],
    [latin("GMBU"), "a capture of Microsoft's Network Monitor", CONVERT],
    [latin("RTSS"), "a capture of Microsoft's Network Monitor", CONVERT],
    [latin("XCP\0"), "a capture of NetXRay", CONVERT],
    [latin("iptrace "), "a capture of iptrace", CONVERT],
    [[0x01, 0x10, 0x4c, 0x00], "a capture of LANalyzer", CONVERT],
    [[0x34, 0xcd, 0xb2, 0xa1], "a capture of a changed libpcap", CONVERT],
    [[0xa1, 0xb2, 0xcd, 0x34], "a capture of a changed libpcap", CONVERT],
    [latin("%PDF"), "a PDF file", ""],
    [[0x89, ...latin("PNG")], "a picture", ""],
    [[0xff, 0xd8, 0xff], "a picture", ""],
    [latin("GIF8"), "a picture", ""],
    [[0x7f, ...latin("ELF")], "a program", ""],
    [latin("MZ"), "a program", ""],
    [[0xff, 0xfe], "UTF-16", "save it as UTF-8"],
    [[0xfe, 0xff], "UTF-16", "save it as UTF-8"],
    [[0xef, 0xbb, 0xbf], "UTF-8 with a byte order mark", "save it without one"],
];
// How captures begin that are read: pcap with times in microseconds or nanoseconds, its lowest byte first or last; and pcapng.
const PCAP = [[0xd4, 0xc3, 0xb2, 0xa1], [0xa1, 0xb2, 0xc3, 0xd4], [0x4d, 0x3c, 0xb2, 0xa1], [0xa1, 0xb2, 0x3c, 0x4d]];
const PCAPNG = [0x0a, 0x0d, 0x0d, 0x0a];
const HEAD = 512;

const begins = (bytes, begin) => begin.every((it, k) => bytes[k] === it);

// Whether a file is as much of pcap's first bytes as there is of it.
export const beginsAsPcap = (bytes) => PCAP.some((it) => begins(bytes, it.slice(0, bytes.length)));
export const isCapture = (bytes) => [...PCAP, PCAPNG].some((it) => begins(bytes, it));
// Whether a file begins as text.
export const isText = (bytes) => bytes.subarray(0, HEAD).every((it) => it >= 32 || [9, 10, 13].includes(it));
// What a file is that begins as one of the list, and what to do; or nothing.
export const known = (bytes) => KNOWN.find(([begin]) => begins(bytes, begin))?.slice(1);
// The same as a sentence.
export const said = ([what, todo]) => `this is ${what}${todo && `: ${todo}`}`;
