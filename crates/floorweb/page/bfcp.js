// BFCP messages (RFC 8855, version 1 over a reliable transport) as bytes and as objects.
//
// A message is { primitive, conference, transaction, user, attributes }, an attribute
// { type, mandatory, value }; `primitive` and `type` are the names of the tables below.

const PRIMITIVES = table([
  "FloorRequest", "FloorRelease", "FloorRequestQuery", "FloorRequestStatus", "UserQuery", "UserStatus",
  "FloorQuery", "FloorStatus", "ChairAction", "ChairActionAck", "Hello", "HelloAck", "Error",
  "FloorRequestStatusAck", "FloorStatusAck", "Goodbye", "GoodbyeAck",
]);

const ATTRIBUTES = table([
  "BENEFICIARY-ID", "FLOOR-ID", "FLOOR-REQUEST-ID", "PRIORITY", "REQUEST-STATUS", "ERROR-CODE",
  "ERROR-INFO", "PARTICIPANT-PROVIDED-INFO", "STATUS-INFO", "SUPPORTED-ATTRIBUTES",
  "SUPPORTED-PRIMITIVES", "USER-DISPLAY-NAME", "USER-URI", "BENEFICIARY-INFORMATION",
  "FLOOR-REQUEST-INFORMATION", "REQUESTED-BY-INFORMATION", "FLOOR-REQUEST-STATUS",
  "OVERALL-REQUEST-STATUS",
]);

const STATUSES = table(["Pending", "Accepted", "Granted", "Denied", "Cancelled", "Released", "Revoked"]);

const ERRORS = table([
  "Conference Does Not Exist", "User Does Not Exist", "Unknown Primitive",
  "Unknown Mandatory Attribute", "Unauthorized Operation", "Invalid Floor ID",
  "Floor Request ID Does Not Exist",
  "You have Already Reached the Maximum Number of Ongoing Floor Requests for This Floor", "Use TLS",
  "Unable to Parse Message", "Use DTLS", "Unsupported Version", "Incorrect Message Length",
  "Generic Error",
]);

export const PRIORITY_NAMES = ["Lowest", "Low", "Normal", "High", "Highest"];

/** The most bytes of UTF-8 that the server keeps of what a participant says with a request, and of a chair's reason. */
export const MAX_INFO_LENGTH = 62;
export const MAX_REASON_LENGTH = 30;

const HEADER_LENGTH = 12;

/** Names numbered from 1, both ways. */
function table(names) {
  const byName = {};
  const byNumber = {};
  names.forEach((name, place) => {
    byName[name] = place + 1;
    byNumber[place + 1] = name;
  });
  return { byName, byNumber, nameOf: (number) => byNumber[number] ?? `Unknown ${number}` };
}

const NUMBERS = new Set(["BENEFICIARY-ID", "FLOOR-ID", "FLOOR-REQUEST-ID"]);
const TEXTS = new Set([
  "ERROR-INFO", "PARTICIPANT-PROVIDED-INFO", "STATUS-INFO", "USER-DISPLAY-NAME", "USER-URI",
]);
const GROUPS = new Set([
  "BENEFICIARY-INFORMATION", "FLOOR-REQUEST-INFORMATION", "REQUESTED-BY-INFORMATION",
  "FLOOR-REQUEST-STATUS", "OVERALL-REQUEST-STATUS",
]);

/** Bytes that are no message of RFC 8855. */
export class Malformed extends Error {}

// Writing

/** The bytes of a message. */
export function encode(message) {
  const payload = message.attributes.flatMap(attributeBytes);
  const bytes = new Uint8Array(HEADER_LENGTH + payload.length);
  const view = new DataView(bytes.buffer);
  view.setUint8(0, 1 << 5);
  view.setUint8(1, PRIMITIVES.byName[message.primitive]);
  view.setUint16(2, payload.length / 4);
  view.setUint32(4, message.conference);
  view.setUint16(8, message.transaction);
  view.setUint16(10, message.user);
  bytes.set(payload, HEADER_LENGTH);
  return bytes;
}

/** An attribute, padded to a multiple of 4 bytes; the padding isn't part of its Length. */
function attributeBytes({ type, mandatory = false, value }) {
  const contents = contentBytes(type, value);
  const length = 2 + contents.length;
  if (length > 255) throw new RangeError(`${type} is too long`);
  const head = (ATTRIBUTES.byName[type] << 1) | (mandatory ? 1 : 0);
  return [head, length, ...contents, ...new Array(-length & 3).fill(0)];
}

function contentBytes(type, value) {
  if (NUMBERS.has(type)) return short(value);
  if (TEXTS.has(type)) return [...new TextEncoder().encode(value)];
  if (GROUPS.has(type)) return [...short(value.id), ...value.attributes.flatMap(attributeBytes)];
  switch (type) {
    case "PRIORITY":
      return [value << 5, 0];
    case "REQUEST-STATUS":
      return [STATUSES.byName[value.status], value.position];
    default:
      throw new RangeError(`${type} is written by no client`);
  }
}

function short(number) {
  return [number >> 8, number & 0xff];
}

// Reading

/** The message that these bytes are. */
export function decode(bytes) {
  if (bytes.length < HEADER_LENGTH) throw new Malformed("shorter than a header");
  const view = new DataView(bytes.buffer, bytes.byteOffset, bytes.byteLength);
  const length = HEADER_LENGTH + 4 * view.getUint16(2);
  if (bytes.length !== length) throw new Malformed(`${bytes.length} bytes, where ${length} are announced`);
  return {
    primitive: PRIMITIVES.nameOf(view.getUint8(1)),
    conference: view.getUint32(4),
    transaction: view.getUint16(8),
    user: view.getUint16(10),
    attributes: readAttributes(bytes.subarray(HEADER_LENGTH)),
  };
}

function readAttributes(bytes) {
  const attributes = [];
  let place = 0;
  while (place < bytes.length) {
    const length = bytes[place + 1];
    if (length === undefined || length < 2 || place + length > bytes.length) {
      throw new Malformed(`an attribute of length ${length} at ${place}`);
    }
    const type = ATTRIBUTES.nameOf(bytes[place] >> 1);
    const contents = bytes.subarray(place + 2, place + length);
    attributes.push({ type, mandatory: (bytes[place] & 1) === 1, value: readContents(type, contents) });
    place += (length + 3) & ~3;
  }
  return attributes;
}

function readContents(type, bytes) {
  if (NUMBERS.has(type)) return readShort(bytes);
  if (TEXTS.has(type)) return new TextDecoder().decode(bytes);
  if (GROUPS.has(type)) {
    return { id: readShort(bytes), attributes: readAttributes(bytes.subarray(2)) };
  }
  switch (type) {
    case "PRIORITY":
      return bytes[0] >> 5;
    case "REQUEST-STATUS":
      return { status: STATUSES.nameOf(bytes[0]), position: bytes[1] };
    case "ERROR-CODE":
      return { code: bytes[0], name: ERRORS.nameOf(bytes[0]), details: bytes.slice(1) };
    case "SUPPORTED-ATTRIBUTES":
      return [...bytes].map((byte) => ATTRIBUTES.nameOf(byte >> 1));
    case "SUPPORTED-PRIMITIVES":
      return [...bytes].map((byte) => PRIMITIVES.nameOf(byte));
    default:
      return bytes.slice();
  }
}

function readShort(bytes) {
  if (bytes.length < 2) throw new Malformed("a number of less than 2 bytes");
  return (bytes[0] << 8) | bytes[1];
}

// What a client asks, each as { primitive, attributes }

export const hello = () => ({ primitive: "Hello", attributes: [] });

export const floorQuery = (floors) => ({
  primitive: "FloorQuery",
  attributes: floors.map((value) => ({ type: "FLOOR-ID", value })),
});

/** Asks for floors: for another user, with a priority and with a text, where they are given. */
export function floorRequest({ floors, beneficiary, priority, info }) {
  const attributes = floors.map((value) => ({ type: "FLOOR-ID", value }));
  if (beneficiary !== undefined) attributes.push({ type: "BENEFICIARY-ID", value: beneficiary });
  if (info) attributes.push({ type: "PARTICIPANT-PROVIDED-INFO", value: info });
  if (priority !== undefined) attributes.push({ type: "PRIORITY", value: priority });
  return { primitive: "FloorRequest", attributes };
}

export const floorRelease = (request) => ({
  primitive: "FloorRelease",
  attributes: [{ type: "FLOOR-REQUEST-ID", value: request }],
});

/** A chair's decision on one floor of a request: Accepted, Granted, Denied or Revoked, and why. */
export function chairAction({ request, floor, status, position = 0, reason }) {
  const verdict = [{ type: "REQUEST-STATUS", value: { status, position } }];
  if (reason) verdict.push({ type: "STATUS-INFO", value: reason });
  const attributes = [{ type: "FLOOR-REQUEST-STATUS", value: { id: floor, attributes: verdict } }];
  return {
    primitive: "ChairAction",
    attributes: [{ type: "FLOOR-REQUEST-INFORMATION", value: { id: request, attributes } }],
  };
}

// What a client is told

/** The values of the attributes of a type. */
export function all(attributes, type) {
  return attributes.filter((attribute) => attribute.type === type).map((attribute) => attribute.value);
}

/** The value of the first attribute of a type. */
export function first(attributes, type) {
  return all(attributes, type)[0];
}

/** The floor requests that a message tells of. */
export function requests(message) {
  return all(message.attributes, "FLOOR-REQUEST-INFORMATION").map(({ id, attributes }) => ({
    id,
    ...statusOf(first(attributes, "OVERALL-REQUEST-STATUS")?.attributes ?? []),
    floors: all(attributes, "FLOOR-REQUEST-STATUS").map((floor) => ({
      id: floor.id,
      ...statusOf(floor.attributes),
    })),
    beneficiary: person(first(attributes, "BENEFICIARY-INFORMATION")),
    requestedBy: person(first(attributes, "REQUESTED-BY-INFORMATION")),
    priority: first(attributes, "PRIORITY") ?? 2,
    info: first(attributes, "PARTICIPANT-PROVIDED-INFO") ?? "",
  }));
}

function statusOf(attributes) {
  const { status = "", position = 0 } = first(attributes, "REQUEST-STATUS") ?? {};
  return { status, position, reason: first(attributes, "STATUS-INFO") ?? "" };
}

function person(group) {
  return group && { id: group.id, name: first(group.attributes, "USER-DISPLAY-NAME") ?? "" };
}
