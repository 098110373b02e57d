// The library for JavaScript: a router, DOSBox's tunnel, and whatever a gateway needs, as values. README.md shows how each is used, and
// index.d.mts says what each takes and returns.
export { BROADCAST, IpxrError, isDrop, readFrame, version, words } from "./ipxr.mjs";
export * from "./numbers.mjs";
export { addressOf, addressText, networkOf, networkText, nodeOf, nodeText, placeOf, placeText, socketOf, socketText } from "./text.mjs";
export { load, readPacket, readRip, readSap, Router, writeFrame, writePacket, writeQuery, writeRip, writeSap } from "./router.mjs";
export { hashOf, Keys } from "./keys.mjs";
export { extend, KeyedTunnel, Tunnel } from "./tunnel.mjs";
export { Segment } from "./segment.mjs";
export { Fair, Meter } from "./fair.mjs";
export { AddressUse, ClientUse, HouseholdLimits, kindOf, Limits, LineAddress, Moment, Queues, Reader, StrangersLimits,
    toldByLinks } from "./limits.mjs";
export { Line } from "./line.mjs";
export { Edge } from "./edge.mjs";
export { Asked, Asks, chooseNode, isFirstOfRange, Kinds, Loop, Pace, probe, rangesHave, Twins } from "./cable.mjs";
export { Counts, Course } from "./fates.mjs";
export { Configuration, settingsAddressWords, settingsHexadecimal, settingsLine, settingsLinkWords, settingsNode, settingsRange,
    settingsSocket, settingsWord } from "./settings.mjs";
export { plan } from "./plan.mjs";
