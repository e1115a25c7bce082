-- DAP (DEC's Data Access Protocol 5.6.0) for Wireshark and tshark, over their DECnet dissector (dec_dna).
--
--   tshark -X lua_script:dap.lua -r wire.pcap
--
-- or copy it to the personal Lua plugins folder (Wireshark: Help, About, Folders; tshark: -G folders). docs/CAPTURES.md
-- says what it shows. The protocol is dec_dap, for the names dap.* belong to another one.
--
-- It takes dec_dna's entry in the dissector tables, and calls it first. A postdissector can't reassemble: dec_dna has no
-- field for NSP's payload, and in the first pass of tshark -2 a postdissector has no fields at all. So the routing header
-- and the NSP segment are read here too, up to DECnet's length (dec_dna counts an Ethernet's filling as payload).
--
-- The first part, up to `return reader`, needs no Wireshark: dofile gives it to Lua 5.2 to 5.4. Offsets count from 0.

---------------------------------------------------------------------------------------------------------------------
-- The formats of DAP messages.

-- A number has its least significant byte first; an extensible field has seven bits in a byte, and bit 7 where another
-- byte follows; an image is a count and so many bytes; the rest is what is left of the operand; the bits of a menu name
-- the fields that follow it. Before an optional field the operand may end.
local NUMBER, EXTENSIBLE, IMAGE, REST, MENU = "number", "extensible", "image", "rest", "menu"

local function number(name, size) return { name = name, kind = NUMBER, size = size } end
local function extensible(name, size) return { name = name, kind = EXTENSIBLE, size = size } end
local function image(name, size) return { name = name, kind = IMAGE, size = size } end
local function rest(name) return { name = name, kind = REST } end
local function optional(field)
  field.optional = true
  return field
end
local function menu(name, size, named) return { name = name, kind = MENU, size = size, named = named, optional = true } end

local ATTRIBUTES = {
  extensible("datatype", 2), number("org", 1), number("rfm", 1), extensible("rat", 3), number("bls", 2), number("mrs", 2),
  image("alq", 5), number("bks", 1), number("fsz", 1), image("mrn", 5), image("runsys", 40), number("deq", 2),
  extensible("fop", 6), number("bsz", 1), extensible("dev", 6), extensible("sdc", 6), number("lrl", 2), image("hbk", 5),
  image("ebk", 5), number("ffb", 2), image("sbn", 5),
}
local CONTROLS = {
  number("rac", 1), image("key", 255), number("krf", 1), extensible("rop", 6), image("hsh", 5), extensible("display", 4),
}

-- By type the message's name, its word in a listing, and its fields.
local FORMATS = {
  [1] = { name = "Configuration", word = "config", fields = {
    number("bufsiz", 2), number("ostype", 1), number("filesys", 1), number("vernum", 1), number("econum", 1),
    number("usrnum", 1), number("softver", 1), number("usrsoft", 1), extensible("syscap", 12) } },
  [2] = { name = "Attributes", word = "attributes", fields = { menu("attmenu", 6, ATTRIBUTES) } },
  [3] = { name = "Access", word = "access", fields = {
    number("accfunc", 1), extensible("accopt", 5), image("filespec", 255), optional(extensible("fac", 3)),
    optional(extensible("shr", 3)), optional(extensible("display", 4)), optional(image("password", 40)) } },
  [4] = { name = "Control", word = "control", fields = { number("ctlfunc", 1), menu("ctlmenu", 4, CONTROLS) } },
  [5] = { name = "Continue Transfer", word = "continue", fields = { number("confunc", 1) } },
  [6] = { name = "Acknowledge", word = "ack", fields = {} },
  [7] = { name = "Access Complete", word = "complete", fields = {
    number("cmpfunc", 1), optional(extensible("fop", 6)), optional(number("check", 2)) } },
  [8] = { name = "Data", word = "data", fields = { image("recnum", 8), rest("filedata") } },
  [9] = { name = "Status", word = "status", fields = {
    number("code", 2), optional(image("rfa", 8)), optional(image("recnum", 8)), optional(image("stv", 8)) } },
}
local OTHERS = { "Key Definition", "Allocation", "Summary", "Date and Time", "Protection", "Name", "Access Control List" }
for index, name in ipairs(OTHERS) do FORMATS[9 + index] = { name = name, word = "other", fields = { rest("body") } } end

-- FLAGS
local STREAM_BIT, LENGTH_BIT, LENGTH_256_BIT = 0, 1, 2

---------------------------------------------------------------------------------------------------------------------
-- Reading a message.

-- An extensible field of at most `size` bytes: the offset after it, its value (exact up to 7 bytes) and the bits that are
-- set; or nil and the fault.
local function read_extensible(bytes, at, stop, size)
  local value, unit, bits = 0, 1, {}
  for index = 0, size - 1 do
    if at + index >= stop then return nil, "truncated" end
    local byte = bytes:byte(at + index + 1)
    for bit = 0, 6 do
      if math.floor(byte / 2 ^ bit) % 2 == 1 then bits[#bits + 1] = 7 * index + bit end
    end
    value, unit = value + byte % 128 * unit, unit * 128
    if byte < 128 then return at + index + 1, value, bits end
  end
  return nil, "too-long"
end

-- A number: the offset after it and its value; or nil and the fault.
local function read_number(bytes, at, stop, size)
  if at + size > stop then return nil, "truncated" end
  local value = 0
  for index = size, 1, -1 do value = value * 256 + bytes:byte(at + index) end
  return at + size, value
end

-- An image: the offset after it and its bytes; or nil and the fault.
local function read_image(bytes, at, stop, size)
  if at >= stop then return nil, "truncated" end
  local count = bytes:byte(at + 1)
  if count > size then return nil, "too-long" end
  if at + 1 + count > stop then return nil, "truncated" end
  return at + 1 + count, bytes:sub(at + 2, at + 1 + count)
end

-- A field of a format: where it begins and ends, where its value begins, the value, and the bits that are set; or nil and
-- the fault.
local function read_field(bytes, at, stop, format)
  local after, value, bits
  if format.kind == NUMBER then
    after, value = read_number(bytes, at, stop, format.size)
  elseif format.kind == IMAGE then
    after, value = read_image(bytes, at, stop, format.size)
  elseif format.kind == REST then
    after, value = stop, bytes:sub(at + 1, stop)
  else
    after, value, bits = read_extensible(bytes, at, stop, format.size)
  end
  if not after then return nil, value end
  return { name = format.name, kind = format.kind, at = at, value_at = format.kind == IMAGE and at + 1 or at,
    stop = after, value = value, bits = bits }
end

-- The fields that a menu's bits name; nil where a bit names none.
local function named_by(bits, formats)
  local named = {}
  for _, bit in ipairs(bits) do
    if bit >= #formats then return nil end
    named[#named + 1] = formats[bit + 1]
  end
  return named
end

-- Reads fields to the end of `fields`: a fault or nil, and the offset of the field at fault, or the one after the last field.
local function read_fields(bytes, at, stop, formats, fields)
  for _, format in ipairs(formats) do
    if format.optional and at >= stop then return nil, at end
    local field, fault = read_field(bytes, at, stop, format)
    if not field then return fault, at end
    fields[#fields + 1] = field
    at = field.stop
    if format.kind == MENU then
      local named = named_by(field.bits, format.named)
      if not named then return "menu", field.at end
      fault, at = read_fields(bytes, at, stop, named, fields)
      if fault then return fault, at end
    end
  end
  return nil, at
end

-- Reads FLAGS of a message: the bits that are set, and the offset after it; or nil, the fault and its offset.
local function read_flags(bytes, message, at)
  local after, value, bits = read_extensible(bytes, at, #bytes, 5)
  if not after then return nil, value, at end
  message.flags, message.flags_at, message.flags_stop = value, at, after
  local has = {}
  for _, bit in ipairs(bits) do
    if bit > LENGTH_256_BIT then return nil, "flags", at end
    has[bit] = true
  end
  if has[LENGTH_256_BIT] and not has[LENGTH_BIT] then return nil, "flags", at end
  return has, after
end

-- Reads STREAMID and LENGTH, as FLAGS has them: the offset of the operand and the one after it; or nil, the fault and its
-- offset.
local function read_lengths(bytes, message, at, has)
  if has[STREAM_BIT] then
    local after, stream = read_number(bytes, at, #bytes, 1)
    if not after then return nil, stream, at end
    message.stream, message.stream_at = stream, at
    if stream ~= 0 then return nil, "stream", at end
    at = after
  end
  if not has[LENGTH_BIT] then return at, #bytes end
  local first, length_at, length = at, at, 0
  for index = 0, has[LENGTH_256_BIT] and 1 or 0 do
    local after, byte = read_number(bytes, at, #bytes, 1)
    if not after then return nil, byte, at end
    at, length = after, length + byte * 256 ^ index
  end
  length = math.floor(length)
  message.length, message.length_at, message.length_size = length, first, at - first
  if at + length > #bytes then return nil, "truncated", length_at end
  return at, at + length
end

-- Reads all of a message but its type and name: the fault and its offset, if there is one.
local function read_body(bytes, message)
  local has, at, fault_at = read_flags(bytes, message, message.at + 1)
  if not has then return at, fault_at end
  local operand_at, stop, length_at = read_lengths(bytes, message, at, has)
  if not operand_at then return stop, length_at end
  message.operand_at, message.stop = operand_at, stop
  local fault, after = read_fields(bytes, operand_at, stop, message.format.fields, message.fields)
  if fault then return fault, after end
  if after < stop then message.ignored_at = after end
end

-- The message at an offset of an NSP message, with `fault` and `fault_at` where it is none. `kind` is its type, `format` what
-- is known of that type, and `found` has its fields by name.
local function read_message(bytes, at)
  local message = { at = at, kind = bytes:byte(at + 1) or 0, fields = {}, stop = #bytes, found = {} }
  message.format = FORMATS[message.kind]
  if at >= #bytes then
    message.fault, message.fault_at = "truncated", at
  elseif not message.format then
    message.fault, message.fault_at = "type", at
  else
    message.fault, message.fault_at = read_body(bytes, message)
    for _, field in ipairs(message.fields) do message.found[field.name] = field end
  end
  return message
end

-- All DAP messages of an NSP message, up to the first that is at fault.
local function read_payload(bytes)
  local messages, at = {}, 0
  repeat
    local message = read_message(bytes, at)
    messages[#messages + 1] = message
    at = message.stop
  until message.fault or at >= #bytes
  return messages
end

---------------------------------------------------------------------------------------------------------------------
-- The line of a message in a listing of `dapnsp show`.

local function hex(bytes)
  if bytes == nil or bytes == "" then return "-" end
  return (bytes:gsub(".", function(byte) return string.format("%02x", byte:byte()) end))
end

-- The decimal of a number whose bits are given (SYSCAP has up to 84).
local function decimal_of_bits(bits)
  local set, digits, high = {}, { 0 }, -1
  for _, bit in ipairs(bits) do
    set[bit] = true
    high = math.max(high, bit)
  end
  for bit = high, 0, -1 do
    local carry = set[bit] and 1 or 0
    for index = 1, #digits do
      local value = digits[index] * 2 + carry
      digits[index], carry = value % 10, math.floor(value / 10)
    end
    if carry > 0 then digits[#digits + 1] = carry end
  end
  local text = {}
  for index = #digits, 1, -1 do text[#text + 1] = string.format("%d", digits[index]) end
  return table.concat(text)
end

local function decimal(field) return field and string.format("%.0f", field.value) or "0" end
local function hexadecimal(field) return hex(field and field.value) end

local function fields_line(message)
  local parts = { message.format.word }
  for _, field in ipairs(message.fields) do
    if field.name == "ctlfunc" then
      parts[#parts + 1] = "func=" .. decimal(field)
    elseif field.kind ~= MENU then
      parts[#parts + 1] = field.name .. "=" .. (field.kind == IMAGE and hexadecimal(field) or decimal(field))
    end
  end
  return table.concat(parts, " ")
end

local LINES = {
  config = function(found)
    local version = {}
    for _, name in ipairs { "vernum", "econum", "usrnum", "softver", "usrsoft" } do
      version[#version + 1] = decimal(found[name])
    end
    return string.format("config bufsiz=%s ostype=%s filesys=%s version=%s syscap=%s", decimal(found.bufsiz),
      decimal(found.ostype), decimal(found.filesys), table.concat(version, "."), decimal_of_bits(found.syscap.bits))
  end,
  access = function(found)
    return string.format("access func=%s opt=%s name=%s fac=%s shr=%s display=%s password=%d", decimal(found.accfunc),
      decimal(found.accopt), hexadecimal(found.filespec), decimal(found.fac), decimal(found.shr), decimal(found.display),
      found.password and #found.password.value or 0)
  end,
  continue = function(found) return "continue func=" .. decimal(found.confunc) end,
  ack = function() return "ack" end,
  complete = function(found)
    return string.format("complete func=%s fop=%s check=%s", decimal(found.cmpfunc), decimal(found.fop),
      found.check and decimal(found.check) or "-")
  end,
  data = function(found) return "data recnum=" .. hexadecimal(found.recnum) .. " body=" .. hexadecimal(found.filedata) end,
  status = function(found)
    return string.format("status %04x rfa=%s recnum=%s stv=%s", found.code.value, hexadecimal(found.rfa),
      hexadecimal(found.recnum), hexadecimal(found.stv))
  end,
}

local function listing_line(message)
  if message.fault then
    return string.format("bad %s type=%d at=%d", message.fault, message.kind, message.fault_at)
  end
  local word = message.format.word
  if word == "other" then return string.format("other type=%d body=%s", message.kind, hexadecimal(message.found.body)) end
  return LINES[word] and LINES[word](message.found) or fields_line(message)
end

---------------------------------------------------------------------------------------------------------------------
-- Values in words.

-- Made by tools/tables, which has their home:
local WORDS = {
  ostype = { [1] = "RT-11", [2] = "RSTS/E", [3] = "RSX-11S", [4] = "RSX-11M", [6] = "IAS", [7] = "VAX/VMS",
    [8] = "TOPS-20", [9] = "TOPS-10", [12] = "RSX-11M-PLUS", [18] = "Ultrix-32", [5] = "RSX-11D", [10] = "RTS-8",
    [11] = "OS-8", [13] = "COPOS/11", [14] = "P/OS", [15] = "VAXELN", [16] = "CP/M", [17] = "MS-DOS",
    [19] = "Ultrix-11", [21] = "DTF/MVS" },
  org = { [0] = "sequential", [16] = "relative", [32] = "indexed" },
  rfm = { [0] = "undefined", [1] = "fixed", [2] = "variable", [3] = "VFC", [4] = "stream", [5] = "stream LF",
    [6] = "stream CR" },
  accfunc = { [1] = "open", [2] = "create", [3] = "rename", [4] = "erase", [6] = "directory" },
  ctlfunc = { [1] = "get", [2] = "connect", [3] = "update", [4] = "put", [5] = "delete", [6] = "rewind" },
  rac = { [0] = "sequential", [1] = "by number", [2] = "by RFA", [3] = "whole file", [4] = "by VBN", [5] = "blocks" },
  confunc = { [1] = "try again", [2] = "skip", [3] = "abort", [4] = "resume" },
  cmpfunc = { [1] = "close", [2] = "response", [3] = "purge", [4] = "end of stream", [5] = "skip" },
  stscode = { [0x5027] = "end of file", [0x4032] = "file not found", [0x4030] = "file locked", [0x402d] = "file exists",
    [0x4055] = "not permitted", [0x405d] = "bad attributes", [0x502c] = "not permitted", [0x5019] = "no current record",
    [0x5060] = "record not found", [0x505b] = "record exists", [0x5049] = "number out of range",
    [0x5066] = "bad length", [0x5057] = "bad access mode", [0x503a] = "delete not allowed",
    [0x5067] = "too large for buffer", [0x503e] = "bad key" },
  maccode = { [0] = "pending", [1] = "success", [2] = "unsupported", [4] = "error on opening", [5] = "transfer error",
    [6] = "transfer warning", [7] = "termination error", [8] = "format", [9] = "invalid",
    [10] = "out of synchronization" },
  reason = { [1] = "file exists", [2] = "not permitted", [3] = "no current record", [4] = "record not found",
    [5] = "record exists", [6] = "number out of range", [7] = "bad length", [8] = "bad access mode",
    [9] = "delete not allowed", [10] = "too large for buffer", [11] = "bad attributes", [12] = "bad key" },
  filesys = { [1] = "RMS-11", [2] = "RMS-20", [3] = "RMS-32", [4] = "FCS-11", [5] = "RT-11", [6] = "none",
    [7] = "TOPS-20", [8] = "TOPS-10", [9] = "OS-8", [10] = "RMS-32S", [11] = "CP/M", [12] = "MS-DOS",
    [13] = "Ultrix-32", [14] = "Ultrix-11" },
}
local RAT = { [0] = "FTN", [1] = "CR", [2] = "PRN", [3] = "BLK" }
-- Up to here it was made by tools/tables.
for number, word in pairs(WORDS.ctlfunc) do WORDS.ctlfunc[number] = word:upper() end
local BITS = {
  datatype = { [0] = "ASCII", "image" }, rat = RAT,
  fac = { [0] = "PUT", "GET", "DEL", "UPD" }, shr = { [0] = "PUT", "GET", "DEL", "UPD" },
}
local CONNECT = 2
local SUCCESS, UNSUPPORTED, OPENING, TRANSFER, FORMAT, INVALID, SEQUENCE = 1, 2, 4, 5, 8, 9, 10
local END_OF_FILE = 0x5027

local function words_of_bits(name, bits)
  local parts = {}
  for _, bit in ipairs(bits) do parts[#parts + 1] = BITS[name][bit] or ("bit " .. bit) end
  return #parts > 0 and table.concat(parts, "+") or "none"
end

local function printable(bytes)
  return '"' .. bytes:gsub("[^\32-\126]", function(byte) return string.format("\\x%02x", byte:byte()) end) .. '"'
end

-- An image as a number, where a double has it exactly; else in hex.
local function image_text(bytes)
  if #bytes == 0 or #bytes > 6 then return hex(bytes) end
  local value = 0
  for index = #bytes, 1, -1 do value = value * 256 + bytes:byte(index) end
  return string.format("%.0f", value)
end

local function counted(count, one) return count == 1 and "1 " .. one or count .. " " .. one .. "s" end

local function is_refusal(code) return math.floor(code / 4096) ~= SUCCESS and code ~= END_OF_FILE end

local function status_words(code, stv)
  if WORDS.stscode[code] then return WORDS.stscode[code] end
  local major, minor = math.floor(code / 4096), code % 4096
  local text = WORDS.maccode[major] or "unknown"
  local reason = stv and #stv.value == 1 and WORDS.reason[stv.value:byte()]
  if (major == OPENING or major == TRANSFER) and minor == 0 and reason then
    text = text .. ", " .. reason
  elseif major == SEQUENCE then
    text = text .. (FORMATS[minor] and ", at " .. FORMATS[minor].name or "")
  elseif major == UNSUPPORTED or major == FORMAT or major == INVALID then
    local other = FORMATS[math.floor(minor / 64)]
    text = text .. (other and ", " .. other.name or "") .. string.format(" field %d", minor % 64)
  end
  return text
end

-- A field's value in words; else its name and its number.
local function word_of(field)
  return WORDS[field.name][field.value] or string.format("%s %d", field.name:upper(), field.value)
end

local SUMMARIES = {
  config = function(found) return string.format("%s, buffer %d", word_of(found.ostype), found.bufsiz.value) end,
  attributes = function(found)
    local parts = {}
    for _, name in ipairs { "org", "rfm" } do
      if found[name] then parts[#parts + 1] = word_of(found[name]) end
    end
    if found.mrs and found.mrs.value > 0 then parts[#parts + 1] = string.format("MRS %d", found.mrs.value) end
    return table.concat(parts, ", ")
  end,
  access = function(found)
    local rights = found.fac and found.fac.value > 0 and " for " .. words_of_bits("fac", found.fac.bits) or ""
    return string.format("%s %s%s", word_of(found.accfunc), printable(found.filespec.value), rights)
  end,
  control = function(found)
    local parts = { word_of(found.ctlfunc) }
    if found.rac and found.ctlfunc.value ~= CONNECT then parts[#parts + 1] = word_of(found.rac) end
    if found.key then parts[#parts + 1] = image_text(found.key.value) end
    return table.concat(parts, " ")
  end,
  continue = function(found) return word_of(found.confunc) end,
  ack = function() return "" end,
  complete = function(found) return word_of(found.cmpfunc) end,
  data = function(found)
    local record = found.recnum.value ~= "" and "record " .. image_text(found.recnum.value) .. ", " or ""
    return record .. counted(#found.filedata.value, "byte")
  end,
  status = function(found)
    local record = found.recnum and found.recnum.value ~= "" and ", record " .. image_text(found.recnum.value) or ""
    return string.format("%04x %s%s", found.code.value, status_words(found.code.value, found.stv), record)
  end,
  other = function(found) return counted(#found.body.value, "byte") end,
}

-- A message in a few words, for the tree and the Info column.
local function summary(message)
  local name = message.format and message.format.name or "type " .. message.kind
  if message.fault then return string.format("[%s: %s at byte %d]", name, message.fault, message.fault_at) end
  local words = SUMMARIES[message.format.word](message.found)
  return words ~= "" and name .. " " .. words or name
end

---------------------------------------------------------------------------------------------------------------------
-- NSP: a packet, and the segments of a stream reassembled.

local MARKS = { [0x00] = "middle", [0x20] = "first", [0x40] = "last", [0x60] = "only" } -- by MSGFLG
local BEGINS, ENDS = { first = true, only = true }, { last = true, only = true }
local NUMBERS, HALF = 4096, 2048 -- sequence numbers, and how many of them are ahead of one
local ACKNOWLEDGES = 0x8000 -- the bit of an acknowledgement field, of which a segment has at most two
local FIELDS_BEFORE_PAYLOAD = 3
local CONNECT_INITIATE = { [0x18] = true, [0x68] = true } -- by MSGFLG; the second is a retransmission

local function read_word(bytes, at)
  local low, high = bytes:byte(at + 1, at + 2)
  return high and low + 256 * high
end

-- A data segment; nil for another packet; nil, a fault and its offset.
local function read_segment(bytes)
  local mark = MARKS[bytes:byte(1) or -1]
  if not mark then return nil end
  local receiver, sender, at, word = read_word(bytes, 1), read_word(bytes, 3), 5, nil
  if not receiver then return nil, "truncated", 1 end
  if not sender then return nil, "truncated", 3 end
  for _ = 1, FIELDS_BEFORE_PAYLOAD do
    word = read_word(bytes, at)
    if not word then return nil, "truncated", at end
    if word < ACKNOWLEDGES then break end
    at = at + 2
  end
  if word >= ACKNOWLEDGES then return nil, "number", at - 2 end
  return { mark = mark, receiver = receiver, sender = sender, number = word % NUMBERS, payload_at = at + 2,
    payload = bytes:sub(at + 3) }
end

-- The object of a Connect Initiate and the sender's link address; nil for another packet. An object by name is -1.
local function read_connect(bytes)
  if not CONNECT_INITIATE[bytes:byte(1) or -1] or #bytes < 11 then return nil end
  local format, object = bytes:byte(10, 11)
  return format == 0 and object or -1, read_word(bytes, 3)
end

-- The sender's link address of a Connect Initiate, which opens its link anew; nil for another packet.
local function opened_by(bytes)
  return CONNECT_INITIATE[bytes:byte(1) or -1] and read_word(bytes, 3)
end

-- A stream: the segments of one direction of a link, by their sequence numbers without modulus; where the fragment of a
-- message begins (`left`, by its last) and ends (`right`, by its first).
local function new_stream(from, to, segment)
  return { from = from, to = to, receiver = segment.receiver, sender = segment.sender, segments = {}, left = {}, right = {} }
end

-- The sequence number without modulus: nearest to the highest so far, and ahead where both are as near.
local function sequence_of(stream, number_mod)
  if not stream.highest then return number_mod + NUMBERS end
  local ahead = (number_mod - stream.highest) % NUMBERS
  return stream.highest + (ahead <= HALF and ahead or ahead - NUMBERS)
end

-- The NSP message that a segment, just inserted, makes whole; else nil. Fragments are cut before each segment that begins a
-- message and after each one that ends one.
local function completed(stream, segment)
  local at, segments = segment.sequence, stream.segments
  local from, to, before, after = at, at, segments[at - 1], segments[at + 1]
  if before and not ENDS[before.mark] and not BEGINS[segment.mark] then from = stream.left[at - 1] end
  if after and not BEGINS[after.mark] and not ENDS[segment.mark] then to = stream.right[at + 1] end
  stream.right[from], stream.left[to] = to, from
  if not (BEGINS[segments[from].mark] and ENDS[segments[to].mark]) then return nil end
  local message = { from = from, to = to, frame = segment.frame }
  for sequence = from, to do segments[sequence].message = message end
  return message
end

-- Takes a segment: the one that counts for its sequence number, which is an earlier one where this is a retransmission; and
-- the NSP message that it makes whole.
local function take_segment(stream, segment)
  local at, highest = sequence_of(stream, segment.number), stream.highest
  segment.sequence = at
  if stream.segments[at] then return stream.segments[at], nil end
  if highest and at > highest + 1 then segment.skipped = at - highest - 1 end
  stream.highest = math.max(highest or at, at)
  stream.segments[at] = segment
  return segment, completed(stream, segment)
end

local function bytes_of(stream, message)
  local parts = {}
  for sequence = message.from, message.to do parts[#parts + 1] = stream.segments[sequence].payload end
  return table.concat(parts)
end

-- Routing headers, by the low bits of their flags: the size, and the offsets of sender and receiver.
local HEADERS = { [6] = { size = 21, sender = 15, receiver = 7 }, [2] = { size = 6, sender = 3, receiver = 1 } }
local LENGTH_SIZE, PADDING = 2, 0x80

-- Where a DECnet packet has its NSP packet, and its sender and receiver; nil for a routing message and for one cut short.
-- (In Wireshark 4.0 tostring(pinfo.src) is no text of a DECnet address, and dec_dna.src_node is also an NSP link address.)
local function read_routed(bytes)
  local length = read_word(bytes, 0)
  local stop, at = length and length + LENGTH_SIZE, LENGTH_SIZE
  if not length or length == 0 or stop > #bytes then return nil end
  if bytes:byte(at + 1) >= PADDING then at = at + bytes:byte(at + 1) % PADDING end
  if at >= stop or bytes:byte(at + 1) >= PADDING then return nil end
  local header = HEADERS[bytes:byte(at + 1) % 8]
  if not header or at + header.size >= stop then return nil end
  return at + header.size, stop, read_word(bytes, at + header.sender), read_word(bytes, at + header.receiver)
end

local reader = { read_payload = read_payload, listing_line = listing_line, summary = summary, read_segment = read_segment }
if not (Proto and DissectorTable) then return reader end

---------------------------------------------------------------------------------------------------------------------
-- Wireshark: fields, preferences.

local dap = Proto("dec_dap", "DECnet Data Access Protocol")
local fields, all_fields = {}, {}

local function define(key, kind, label, ...)
  fields[key] = ProtoField[kind]("dec_dap." .. key, label, ...)
  all_fields[#all_fields + 1] = fields[key]
end

local TYPES = {}
for kind, format in pairs(FORMATS) do TYPES[kind] = format.name end
define("type", "uint8", "Type", base.DEC, TYPES)
define("flags", "uint8", "Flags", base.HEX)
define("streamid", "uint8", "Stream")
define("length", "uint16", "Length of the operand")
define("operand", "bytes", "Bytes that are ignored")
define("text", "string", "Listing")
define("summary", "string", "Summary")
define("bad", "string", "Fault")
define("bad.type", "uint8", "Type", base.DEC)
define("bad.at", "uint32", "At byte of the NSP message")
define("nsp.segment", "framenum", "Segment in frame", base.NONE, frametype.NONE)
define("nsp.segments", "uint32", "Segments")
define("nsp.length", "uint32", "Length of the NSP message")
define("nsp.first", "uint16", "First segment's number")
define("nsp.last", "uint16", "Last segment's number")
define("nsp.message_in", "framenum", "Part of the NSP message in frame", base.NONE, frametype.NONE)
define("nsp.repeats", "framenum", "Retransmits the segment in frame", base.NONE, frametype.RETRANS_PREV or frametype.NONE)
define("nsp.missing", "uint32", "Segments that are missing before this one, so far")
define("nsp.bad", "string", "NSP fault")
define("nsp.bad.at", "uint32", "At byte of the NSP packet")
define("status.maccode", "uint16", "MACCODE", base.DEC, WORDS.maccode, 0xf000)
define("status.miccode", "uint16", "MICCODE", base.OCT, nil, 0x0fff)
define("status.reason", "uint8", "Reason", base.DEC, WORDS.reason)
define("config.syscap.bit", "uint8", "SYSCAP bit")
define("access.password_length", "uint8", "PASSWORD, its length")

-- Fields that aren't shown as their kind would be.
local TEXTS = { ["access.filespec"] = true, ["attributes.runsys"] = true }
local LITTLE_NUMBERS = { ["data.recnum"] = true, ["status.recnum"] = true }
local PASSWORD, SYSCAP, STATUS_CODE, STATUS_STV = "access.password", "config.syscap", "status.code", "status.stv"

local function define_formats(word, formats)
  for _, format in ipairs(formats) do
    local key, label = word .. "." .. format.name, format.name:upper()
    local is_bytes = format.kind == IMAGE or format.kind == REST
    if fields[key] or key == PASSWORD then
      -- an "other" message's body once; of a password only its length
    elseif TEXTS[key] then
      define(key, "string", label)
    elseif LITTLE_NUMBERS[key] then
      define(key, "uint64", label)
    elseif is_bytes or key == SYSCAP then
      define(key, "bytes", label)
    elseif format.kind == NUMBER then
      local shown_as = key == STATUS_CODE and base.HEX or base.DEC
      define(key, format.size == 1 and "uint8" or "uint16", label, shown_as, WORDS[format.name])
    else
      define(key, "uint64", label, base.HEX)
    end
    if format.named then define_formats(word, format.named) end
  end
end
for _, format in pairs(FORMATS) do define_formats(format.word, format.fields) end
dap.fields = all_fields

local GROUP, SEVERITY = expert.group, expert.severity
local malformed = ProtoExpert.new("dec_dap.malformed", "Malformed DAP message", GROUP.MALFORMED, SEVERITY.ERROR)
local bad_segment = ProtoExpert.new("dec_dap.nsp.malformed", "Malformed NSP segment", GROUP.MALFORMED, SEVERITY.ERROR)
local refusal = ProtoExpert.new("dec_dap.refusal", "Refusal", GROUP.RESPONSE_CODE, SEVERITY.NOTE)
local hole = ProtoExpert.new("dec_dap.nsp.hole", "Segments are missing before this one", GROUP.SEQUENCE, SEVERITY.WARN)
local again = ProtoExpert.new("dec_dap.nsp.again", "Retransmitted segment", GROUP.SEQUENCE, SEVERITY.NOTE)
dap.experts = { malformed, bad_segment, refusal, hole, again }

dap.prefs.fal = Pref.bool("Leave links to other objects out", true,
  "Read as DAP the links whose Connect Initiate names object 17 (FAL), and those whose Connect Initiate isn't in the capture")

---------------------------------------------------------------------------------------------------------------------
-- Wireshark: the tree. `range_of(at, size)` is the range of bytes of an NSP message.

local function add_value(tree, key, range, field)
  local made = fields[key]
  if TEXTS[key] then return tree:add(made, range, (field.value:gsub("[^\32-\126]", "."))) end
  if LITTLE_NUMBERS[key] then return tree:add_le(made, range) end
  if field.kind == NUMBER then return tree:add_le(made, range) end
  if field.kind == REST or key == SYSCAP then return tree:add(made, range) end
  if field.kind == IMAGE then
    local item = tree:add(made, range)
    if #field.value <= 6 then item:append_text(" (" .. image_text(field.value) .. ")") end
    return item
  end
  local item = tree:add(made, range, UInt64.new(field.value % 2 ^ 32, math.floor(field.value / 2 ^ 32)))
  if BITS[field.name] then item:append_text(" (" .. words_of_bits(field.name, field.bits) .. ")") end
  return item
end

local function add_field(tree, key, range_of, field)
  if key == PASSWORD then
    tree:add(fields["access.password_length"], range_of(field.at, 1), #field.value)
    return
  end
  if field.value == "" then return end
  local range = range_of(field.value_at, field.stop - field.value_at)
  local item = add_value(tree, key, range, field)
  if key == SYSCAP then
    for _, bit in ipairs(field.bits) do item:add(fields["config.syscap.bit"], range, bit) end
  elseif key == STATUS_CODE then
    item:add_le(fields["status.maccode"], range)
    item:add_le(fields["status.miccode"], range)
  elseif key == STATUS_STV and #field.value == 1 then
    item:add(fields["status.reason"], range)
  end
end

-- Type, FLAGS, STREAMID and LENGTH.
local function add_header(item, range_of, message)
  item:add(fields.type, range_of(message.at, 1))
  if message.flags and message.flags < 256 then
    item:add(fields.flags, range_of(message.flags_at, message.flags_stop - message.flags_at), message.flags)
  end
  if message.stream then item:add(fields.streamid, range_of(message.stream_at, 1)) end
  if message.length then item:add(fields.length, range_of(message.length_at, message.length_size), message.length) end
end

local function add_fault(item, range, message)
  local bad = item:add(fields.bad, range, message.fault)
  bad:add(fields["bad.type"], range, message.kind)
  bad:add(fields["bad.at"], range, message.fault_at)
  bad:add_proto_expert_info(malformed, string.format("%s at byte %d", message.fault, message.fault_at))
end

-- A message into the tree; its summary.
local function add_message(tree, range_of, bytes, message)
  local text = summary(message)
  local range = range_of(message.at, message.stop - message.at)
  local item = tree:add(fields.summary, range, text)
  item:set_text("DAP " .. text)
  if message.at < #bytes then add_header(item, range_of, message) end
  for _, field in ipairs(message.fields) do add_field(item, message.format.word .. "." .. field.name, range_of, field) end
  if message.ignored_at then item:add(fields.operand, range_of(message.ignored_at, message.stop - message.ignored_at)) end
  if message.fault then
    add_fault(item, range_of(message.fault_at, 1), message)
  elseif message.found.code and is_refusal(message.found.code.value) then
    item:add_proto_expert_info(refusal, text)
  end
  item:add(fields.text, range, listing_line(message)):set_generated()
  return text
end

-- The messages of an NSP message into the tree; their summaries.
local function add_messages(tree, range_of, bytes)
  local summaries = {}
  for _, message in ipairs(read_payload(bytes)) do
    summaries[#summaries + 1] = add_message(tree, range_of, bytes, message)
  end
  return summaries
end

-- Bytes of an NSP message; after its last byte that one, for Wireshark marks no empty range there.
local function part_of(whole, length, at, size)
  if length == 0 then return whole end
  if at >= length then return whole(length - 1, 1) end
  return whole(at, size)
end

-- An NSP message that this frame completes, of several segments or of another frame's.
local function add_reassembled(tree, range, stream, message)
  local bytes, count = bytes_of(stream, message), message.to - message.from + 1
  local top = tree:add(dap)
  local inner = top:add(fields["nsp.segments"], count):set_generated()
  for sequence = message.from, message.to do
    inner:add(fields["nsp.segment"], stream.segments[sequence].frame):set_generated()
  end
  top:add(fields["nsp.first"], message.from % NUMBERS):set_generated()
  top:add(fields["nsp.last"], message.to % NUMBERS):set_generated()
  top:add(fields["nsp.length"], #bytes):set_generated()
  local whole = #bytes > 0 and ByteArray.new(bytes, true):tvb("NSP message") or range
  local summaries = add_messages(top, function(at, size) return part_of(whole, #bytes, at, size) end, bytes)
  top:set_text(string.format("DECnet Data Access Protocol, %s in an NSP message of %s", counted(#summaries, "message"),
    counted(count, "segment")))
  return summaries
end

-- An NSP message that is one segment, in this frame.
local function add_only(tree, payload, segment)
  local length = #segment.payload
  local function range_of(at, size) return part_of(payload, length, at, size) end
  local top = tree:add(dap, range_of(0, length))
  local summaries = add_messages(top, range_of, segment.payload)
  top:set_text("DECnet Data Access Protocol, " .. counted(#summaries, "message"))
  return summaries
end

-- What is said of a segment that completes no message: an item in the tree, and a note for the Info column.
local function add_note(tree, payload, segment, kept, elsewhere)
  local item = tree:add(dap, payload)
  if kept.counts ~= segment then
    local frame = kept.counts.frame
    item:set_text("DECnet Data Access Protocol, a retransmitted segment")
    item:add(fields["nsp.repeats"], payload, frame)
    if elsewhere then item:add(fields["nsp.message_in"], payload, elsewhere.frame) end
    item:add_proto_expert_info(again, string.format("segment %d came before, in frame %d", segment.number, frame))
    return string.format("retransmits frame %d, segment %d", frame, segment.number)
  end
  if not elsewhere then
    item:set_text(string.format("DECnet Data Access Protocol, %s segment %d of an NSP message that isn't whole", segment.mark,
      segment.number))
    return string.format("segment %d (%s)", segment.number, segment.mark)
  end
  item:set_text(string.format("DECnet Data Access Protocol, %s segment %d of an NSP message", segment.mark, segment.number))
  item:add(fields["nsp.message_in"], payload, elsewhere.frame)
  return string.format("segment %d (%s) of the message in frame %d", segment.number, segment.mark, elsewhere.frame)
end

-- Three or more Data in a row are one entry of the Info column.
local function shortened(summaries)
  local parts, at = {}, 1
  while at <= #summaries do
    local after = at
    while summaries[after] and summaries[after]:match("^Data ") do after = after + 1 end
    if after - at > 2 then
      parts[#parts + 1] = after - at .. " Data"
      at = after
    else
      parts[#parts + 1] = summaries[at]
      at = at + 1
    end
  end
  return table.concat(parts, "; ")
end

local INFO_LENGTH = 300

local function set_columns(pinfo, summaries, note)
  local info = shortened(summaries)
  if note then info = info .. (info ~= "" and "; " or "") .. note end
  pinfo.cols.protocol = "DAP"
  pinfo.cols.info = #info > INFO_LENGTH and info:sub(1, INFO_LENGTH - 3) .. "..." or info
end

---------------------------------------------------------------------------------------------------------------------
-- Wireshark: packets. The first pass keeps what a frame has, so that later passes, in any order, show the same.

local FAL = 17
local streams, frames, objects -- by addresses; by frame and offset; the object of a link, by the address that asked for it

function dap.init()
  streams, frames, objects = {}, {}, {}
end

-- Whether a link is to be read as DAP.
local function is_wanted(from, to, segment)
  if not dap.prefs.fal then return true end
  local object = objects[from .. " " .. segment.sender] or objects[to .. " " .. segment.receiver]
  return object == nil or object == FAL
end

-- The streams of a link that is opened again are over: those of the address that asks for it, both ways.
local function end_streams(from, to, address)
  for key, one in pairs(streams) do
    local sent = one.from == from and one.to == to and one.sender == address
    local received = one.from == to and one.to == from and one.receiver == address
    if sent or received then streams[key] = nil end
  end
end

local function keep(pinfo, from, to, bytes)
  local opener = opened_by(bytes)
  if opener then end_streams(from, to, opener) end
  local object, address = read_connect(bytes)
  if object then
    objects[from .. " " .. address] = object
    return nil
  end
  local segment, fault, fault_at = read_segment(bytes)
  if not segment then return fault and { fault = fault, fault_at = fault_at } end
  if not is_wanted(from, to, segment) then return nil end
  segment.frame = pinfo.number
  local key = string.format("%d %d %d %d", from, to, segment.receiver, segment.sender)
  streams[key] = streams[key] or new_stream(from, to, segment)
  local stream = streams[key]
  local counts, message = take_segment(stream, segment)
  return { stream = stream, segment = segment, counts = counts, whole = message }
end

local function show_fault(kept, tree, range)
  local item = tree:add(dap, range)
  item:set_text("DECnet Data Access Protocol, in no NSP segment")
  local bad = item:add(fields["nsp.bad"], range, kept.fault)
  bad:add(fields["nsp.bad.at"], range, kept.fault_at)
  bad:add_proto_expert_info(bad_segment, string.format("%s at byte %d", kept.fault, kept.fault_at))
end

local function show(kept, pinfo, tree, range)
  local segment, message, summaries, note = kept.segment, kept.whole, {}, nil
  local payload = #segment.payload > 0 and range(segment.payload_at) or range
  if not message then
    note = add_note(tree, payload, segment, kept, kept.counts.message)
  elseif message.from == message.to then
    summaries = add_only(tree, payload, segment)
  else
    summaries = add_reassembled(tree, range, kept.stream, message)
  end
  if message and #summaries == 0 then note = "an empty NSP message" end
  if segment.skipped then
    local item = tree:add(fields["nsp.missing"], segment.skipped):set_generated()
    item:add_proto_expert_info(hole, counted(segment.skipped, "segment") .. " missing before this one, so far")
  end
  set_columns(pinfo, summaries, note)
end

local dec_dna

function dap.dissector(tvb, pinfo, tree)
  dec_dna:call(tvb, pinfo, tree)
  local at, stop, from, to = read_routed(tvb:raw())
  if not at then return tvb:len() end
  local range = tvb(at, stop - at)
  local offset = tvb:offset() -- of several packets in one frame
  frames[pinfo.number] = frames[pinfo.number] or {}
  local kept = frames[pinfo.number][offset]
  if not pinfo.visited or kept == nil then
    kept = keep(pinfo, from, to, range:raw()) or false
    frames[pinfo.number][offset] = kept
  end
  if kept and kept.fault then
    show_fault(kept, tree, range)
  elseif kept then
    show(kept, pinfo, tree, range)
  end
  return tvb:len()
end

-- Ethernet with or without tags and Linux cooked captures; Cisco's HDLC; PPP.
for name, value in pairs { ethertype = 0x6003, ["chdlc.protocol"] = 0x6003, ["ppp.protocol"] = 0x27 } do
  local dissectors = DissectorTable.get(name)
  dec_dna = dec_dna or dissectors:get_dissector(value)
  dissectors:set(value, dap)
end
return reader
