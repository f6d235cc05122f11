-- A dissector of OPC UA PubSub messages in the UADP mapping, for Wireshark and tshark. It reads what the tables of OPC 10000-14 7.2.4
-- allow (NetworkMessages, DataSetMessages, chunks, message security), with values in the binary encoding of OPC 10000-6 5.2.2. Numbers
-- are little-endian but for the block counter of AES-CTR.
--
-- What the standard forbids is told as expert information at its place. Where bytes can't be read on behind it, a fault ends the
-- DataSetMessage or the NetworkMessage that it stands in, and the bytes from there are shown as they are.
--
-- README.md has the preferences and the names of the fields. Outside Wireshark the file gives its ciphers alone.

-- ------------------------------------------------------------------------------------------------------------------------ ciphers

-- bit32 is of Lua 5.2; later ones have operators, which an earlier one can't parse.
local bits = bit32 or bit or load([[return {
    band = function(a, b) return a & b end,
    bxor = function(first, ...) for _, next in ipairs({...}) do first = first ~ next end return first end,
    rshift = function(a, by) return (a & 0xffffffff) >> by end,
    rrotate = function(a, by) a = a & 0xffffffff return (a >> by | a << (32 - by)) & 0xffffffff end}]])()
local band, bxor, rshift, rrotate = bits.band, bits.bxor, bits.rshift, bits.rrotate or bits.ror
local floor = math.floor

local function word_at(text, at)
    local a, b, c, d = text:byte(at, at + 3)
    return ((a * 256 + b) * 256 + c) * 256 + d
end

local function bytes_of(word)
    word = word % 2^32
    return string.char(floor(word / 2^24), floor(word / 2^16) % 256, floor(word / 2^8) % 256, word % 256)
end

-- FIPS 180-4 4.2.2 and 5.3.3: the first 32 bits of the fractions of roots of the first primes.
local ROUND_WORDS, FIRST_HASH = {}, {}
do
    local candidate = 2
    while #ROUND_WORDS < 64 do
        local is_prime = true
        for divisor = 2, floor(candidate^0.5) do is_prime = is_prime and candidate % divisor ~= 0 end
        if is_prime then
            ROUND_WORDS[#ROUND_WORDS + 1] = floor(candidate^(1 / 3) % 1 * 2^32)
            if #FIRST_HASH < 8 then FIRST_HASH[#FIRST_HASH + 1] = floor(candidate^0.5 % 1 * 2^32) end
        end
        candidate = candidate + 1
    end
end

-- FIPS 180-4 6.2.2, step 1: the 64 words of the block that begins there.
local function message_words(text, at)
    local w = {}
    for i = 1, 16 do w[i] = word_at(text, at + 4 * i - 4) end
    for i = 17, 64 do
        local x, y = w[i - 15], w[i - 2]
        local low = bxor(rrotate(x, 7), rrotate(x, 18), rshift(x, 3))
        local high = bxor(rrotate(y, 17), rrotate(y, 19), rshift(y, 10))
        w[i] = (w[i - 16] + low + w[i - 7] + high) % 2^32
    end
    return w
end

-- FIPS 180-4 6.2.2, steps 2 to 4.
local function compressed(hash, text, at)
    local w = message_words(text, at)
    local a, b, c, d, e, f, g, h = table.unpack(hash)
    for i = 1, 64 do
        local choice = bxor(band(e, f), band(-1 - e, g))
        local majority = bxor(band(a, b), band(a, c), band(b, c))
        local first = h + bxor(rrotate(e, 6), rrotate(e, 11), rrotate(e, 25)) + choice + ROUND_WORDS[i] + w[i]
        local second = bxor(rrotate(a, 2), rrotate(a, 13), rrotate(a, 22)) + majority
        a, b, c, d, e, f, g, h = (first + second) % 2^32, a, b, c, (d + first) % 2^32, e, f, g
    end
    local new = {a, b, c, d, e, f, g, h}
    for i = 1, 8 do new[i] = (hash[i] + new[i]) % 2^32 end
    return new
end

-- The SHA-256 of a text of which `before` bytes, a multiple of 64, are in `hash` and `rest` follows.
local function hashed(hash, before, rest)
    local length = 8 * (before + #rest)
    rest = rest .. "\128" .. ("\0"):rep((55 - #rest) % 64) .. bytes_of(floor(length / 2^32)) .. bytes_of(length)
    for at = 1, #rest, 64 do hash = compressed(hash, rest, at) end
    local out = {}
    for i = 1, 8 do out[i] = bytes_of(hash[i]) end
    return table.concat(out)
end

local function sha256(text) return hashed(FIRST_HASH, 0, text) end

-- RFC 2104: a function that gives the HMAC-SHA-256 of a text under this key.
local function hmac_of(key)
    if #key > 64 then key = sha256(key) end
    key = key .. ("\0"):rep(64 - #key)
    local function padded(by)
        return compressed(FIRST_HASH, key:gsub(".", function(byte) return string.char(bxor(byte:byte(), by)) end), 1)
    end
    local inner, outer = padded(0x36), padded(0x5c)
    return function(text) return hashed(outer, 64, hashed(inner, 64, text)) end
end

-- FIPS 197 4.2.1: multiplied by x.
local function doubled(byte) return byte < 128 and 2 * byte or bxor(2 * byte - 256, 0x1b) end

-- FIPS 197 5.1.1: the inverse, by the powers of the generator x + 1, and the affine map.
local function substitution()
    local power, log, box, x = {}, {}, {}, 1
    for i = 0, 254 do
        power[i], log[x] = x, i
        x = bxor(x, doubled(x))
    end
    for byte = 0, 255 do
        local twice = (byte == 0 and 0 or power[(255 - log[byte]) % 255]) * 257
        box[byte] = bxor(twice % 256, 0x63)
        for by = 4, 7 do box[byte] = bxor(box[byte], floor(twice / 2^by) % 256) end
    end
    return box
end

-- FIPS 197 5.1.3: what a byte of each row gives of a column of SubBytes and MixColumns.
local SUBSTITUTED, MIXED = substitution(), {{}, {}, {}, {}}
for byte = 0, 255 do
    local s = SUBSTITUTED[byte]
    local column = ((doubled(s) * 256 + s) * 256 + s) * 256 + bxor(s, doubled(s))
    for row = 1, 4 do MIXED[row][byte] = rrotate(column, 8 * (row - 1)) end
end

local function substituted(a, b, c, d)
    local s = SUBSTITUTED
    return ((s[rshift(a, 24)] * 256 + s[band(rshift(b, 16), 255)]) * 256 + s[band(rshift(c, 8), 255)]) * 256 + s[band(d, 255)]
end

-- FIPS 197 5.2: the words of the key schedule, from 0, of a key of 16 or 32 bytes.
local function key_schedule(key)
    local size, w, constant = floor(#key / 4), {}, 1
    for i = 0, size - 1 do w[i] = word_at(key, 4 * i + 1) end
    for i = size, 4 * (size + 7) - 1 do
        local word = w[i - 1]
        if i % size == 0 then
            word = rrotate(word, 24)
            word = bxor(substituted(word, word, word, word), constant * 2^24)
            constant = doubled(constant)
        elseif size > 6 and i % size == 4 then
            word = substituted(word, word, word, word)
        end
        w[i] = bxor(w[i - size], word)
    end
    w.rounds = size + 6
    return w
end

-- FIPS 197 5.1: a block of four words.
local function enciphered(w, a, b, c, d)
    local m1, m2, m3, m4 = MIXED[1], MIXED[2], MIXED[3], MIXED[4]
    local function column(p, q, r, s, key)
        return bxor(m1[rshift(p, 24)], m2[band(rshift(q, 16), 255)], m3[band(rshift(r, 8), 255)], m4[band(s, 255)], key)
    end
    a, b, c, d = bxor(a, w[0]), bxor(b, w[1]), bxor(c, w[2]), bxor(d, w[3])
    for k = 4, 4 * w.rounds - 4, 4 do
        a, b, c, d = column(a, b, c, d, w[k]), column(b, c, d, a, w[k + 1]), column(c, d, a, b, w[k + 2]), column(d, a, b, c, w[k + 3])
    end
    local k = 4 * w.rounds
    return bxor(substituted(a, b, c, d), w[k]), bxor(substituted(b, c, d, a), w[k + 1]),
        bxor(substituted(c, d, a, b), w[k + 2]), bxor(substituted(d, a, b, c), w[k + 3])
end

-- AES in counter mode (OPC 10000-14 7.2.4.4.3): the counter block is 12 bytes of nonces and the block's number.
local function counter_mode(schedule, nonces, block, text)
    local x, y, z = word_at(nonces, 1), word_at(nonces, 5), word_at(nonces, 9)
    local filled, out = text .. ("\0"):rep(-#text % 16), {}
    for at = 1, #text, 16 do
        local stream = {enciphered(schedule, x, y, z, block % 2^32)}
        for i = 0, 3 do out[#out + 1] = bytes_of(bxor(word_at(filled, at + 4 * i), stream[i + 1])) end
        block = block + 1
    end
    return table.concat(out):sub(1, #text)
end

local ciphers = {sha256 = sha256, hmac_of = hmac_of, key_schedule = key_schedule, counter_mode = counter_mode}
if not Proto then return ciphers end

-- ------------------------------------------------------------------------------------------------ fields, expert information, faults

local uadp = Proto("uadp", "OPC UA PubSub, UADP")

-- The fields by their names, without `uadp.` before them.
local SHOWN, all_experts = {}, {}

local function field(kind, name, ...)
    SHOWN[name] = ProtoField[kind]("uadp." .. name, ...)
    return SHOWN[name]
end

local function expert_info(name, text, group, severity)
    local it = ProtoExpert.new("uadp." .. name, text, expert.group[group], expert.severity[severity])
    all_experts[#all_experts + 1] = it
    return it
end

local SHORT = expert_info("fault.short", "The bytes end before", "MALFORMED", "ERROR")
local BAD_LENGTH = expert_info("fault.length", "A length that none may have", "MALFORMED", "ERROR")
local BAD_SIZES = expert_info("fault.sizes", "Sizes or offsets that pass the end", "MALFORMED", "ERROR")
local BAD_CHUNK = expert_info("fault.chunk", "A chunk that doesn't fit its message", "MALFORMED", "ERROR")
local TOO_DEEP = expert_info("fault.depth", "Values nested more than 100 deep", "MALFORMED", "ERROR")
local BAD_VERSION = expert_info("fault.version", "Another version than 1", "PROTOCOL", "ERROR")
local RESERVED = expert_info("fault.reserved", "A reserved bit or value", "PROTOCOL", "WARN")
local FORBIDDEN = expert_info("fault.forbidden", "What the standard forbids", "PROTOCOL", "WARN")
local BAD_TEXT = expert_info("fault.text", "A String that isn't UTF-8", "PROTOCOL", "WARN")
local TRAILING = expert_info("fault.trailing", "Bytes behind the end that aren't 0", "PROTOCOL", "WARN")
local INVALID = expert_info("invalid", "A DataSetMessage that is marked as not valid", "PROTOCOL", "NOTE")
local REPEATED_CHUNK = expert_info("chunk.repeated", "A chunk of a message that was whole before", "REASSEMBLE", "NOTE")
local BAD_SIGNATURE = expert_info("signature.bad", "No key of the preference gives this signature", "SECURITY", "WARN")
local NO_KEY = expert_info("key.missing", "The preference Keys has no such token", "DECRYPTION", "NOTE")
local NO_FIELDS = expert_info("fields.missing", "The preference Fields doesn't name them", "UNDECODED", "NOTE")
local UNREAD = expert_info("undecoded", "Not decoded", "UNDECODED", "NOTE")
local BAD_PREFERENCE = expert_info("preference", "A preference that isn't understood", "ASSUMPTION", "WARN")

field("bytes", "undecoded_bytes", "Undecoded bytes")
field("bytes", "padding", "Padding")

local function complain(item, about, text) item:add_proto_expert_info(about, text) end

-- What is raised where bytes can't be read on: what it is about, and a text.
local Fault = {}
local function fault(about, text) error(setmetatable({about = about, text = text}, Fault), 0) end

-- ------------------------------------------------------------------------------------------------------------------------- cursors

-- A place in a buffer, and where what is read there ends.
local Cursor = {}
Cursor.__index = Cursor

local function cursor_of(tvb, at, stop) return setmetatable({tvb = tvb, at = at, stop = stop}, Cursor) end

function Cursor:left() return self.stop - self.at end

function Cursor:take(size)
    if size > self:left() then fault(SHORT, ("%.0f bytes are told, and %d are there"):format(size, self:left())) end
    local range = self.tvb(self.at, size)
    self.at = self.at + size
    return range
end

-- A cursor of its own over the next bytes.
function Cursor:part(size)
    self:take(size)
    return cursor_of(self.tvb, self.at - size, self.at)
end

-- The next bytes, shown as this field.
function Cursor:show(tree, shown, size)
    local range = self:take(size)
    return range, tree:add_le(shown, range)
end

function Cursor:since(start) return self.tvb(start, self.at - start) end

local function raw(range) return range:len() == 0 and "" or range:raw() end
local function is_zero(range) return not raw(range):find("[^\0]") end

-- Reads what an item stands for. A fault is told at the item, with the bytes from there; whether there was none.
local function reads(cursor, item, read, ...)
    local done, why = pcall(read, cursor, item, ...)
    if done then return true end
    if getmetatable(why) ~= Fault then error(why, 0) end
    complain(item, why.about, why.text)
    if cursor:left() > 0 then cursor:show(item, SHOWN.undecoded_bytes, cursor:left()) end
    return false
end

-- --------------------------------------------------------------------------------------------------------------------------- flags

-- A byte of flags: a field for it, and one for each part. A part is a name, its mask, a label, and, of more than one bit, its words.
local Flags = {}
Flags.__index = Flags

local function lowest(mask)
    local bit = 1
    while band(mask, bit) == 0 do bit = bit * 2 end
    return bit
end

local function flags(name, label, parts)
    local it = setmetatable({whole = field("uint8", name, label, base.HEX), label = label, parts = {}, reserved = 0, absent = {}}, Flags)
    for _, part in ipairs(parts) do
        local key, mask, text, words = part[1], part[2], part[3], part[4]
        local is_bit = lowest(mask) == mask
        local shown = is_bit and field("bool", name .. "." .. key, text, 8, nil, mask)
            or field("uint8", name .. "." .. key, text, base.DEC, words, mask)
        it.parts[#it.parts + 1] = {key = key, mask = mask, lowest = lowest(mask), is_bit = is_bit, shown = shown}
        it.absent[key] = not is_bit and 0
        if key == "reserved" then it.reserved = mask end
    end
    return it
end

-- The parts by their names: a truth value of one bit, a number of more. Without the byte they are those of 0.
function Flags:show(cursor, tree, is_there)
    if is_there == false then return self.absent end
    local range = cursor:take(1)
    local byte, told = range:uint(), {}
    local item = tree:add(self.whole, range)
    for _, part in ipairs(self.parts) do
        item:add(part.shown, range)
        local number = floor(band(byte, part.mask) / part.lowest)
        told[part.key] = part.is_bit and number == 1 or not part.is_bit and number
    end
    if band(byte, self.reserved) ~= 0 then complain(item, RESERVED, "Reserved bits of " .. self.label .. " are set") end
    return told, item
end

-- -------------------------------------------------------------------------------------------------------- values (OPC 10000-6 5.2.2)

local DEEPEST = 100

-- The built-in types by their numbers: a name, the least number of bytes, and `show`, which shows a value and gives it as a text.
local TYPES = {}
local NUMBER_OF_TYPE = {}

local function add_type(number, name, least, show)
    TYPES[number] = {name = name, least = least, show = show}
    NUMBER_OF_TYPE[name] = number
end

local function value_field(kind, name, ...) return field(kind, "value." .. name:lower(), name, ...) end

local function add_fixed(number, name, kind, size, text_of)
    local shown = value_field(kind, name)
    add_type(number, name, size, function(cursor, tree)
        local range = cursor:show(tree, shown, size)
        return text_of(range)
    end)
end

local function whole(range) return ("%d"):format(range:le_int()) end
local function natural(range) return ("%d"):format(range:le_uint()) end

add_fixed(2, "SByte", "int8", 1, whole)
add_fixed(3, "Byte", "uint8", 1, natural)
add_fixed(4, "Int16", "int16", 2, whole)
add_fixed(5, "UInt16", "uint16", 2, natural)
add_fixed(6, "Int32", "int32", 4, whole)
add_fixed(7, "UInt32", "uint32", 4, natural)
add_fixed(8, "Int64", "int64", 8, function(range) return tostring(range:le_int64()) end)
add_fixed(9, "UInt64", "uint64", 8, function(range) return tostring(range:le_uint64()) end)
add_fixed(10, "Float", "float", 4, function(range) return ("%.7g"):format(range:le_float()) end)
add_fixed(11, "Double", "double", 8, function(range) return ("%.15g"):format(range:le_float()) end)

local BOOLEAN = value_field("bool", "Boolean")
add_type(1, "Boolean", 1, function(cursor, tree)
    local range, item = cursor:show(tree, BOOLEAN, 1)
    if range:uint() > 1 then complain(item, FORBIDDEN, "True is written as 1; any byte but 0 is read as true") end
    return tostring(range:uint() ~= 0)
end)

-- 5.2.2.5: steps of 100 ns since 1601-01-01.
local STEPS, TO_1970 = Int64.new(10000000), 11644473600
local function show_time(cursor, tree, shown)
    local range = cursor:take(8)
    local steps = range:le_int64()
    local seconds, rest = (steps / STEPS):tonumber(), (steps % STEPS):tonumber()
    if rest < 0 then seconds, rest = seconds - 1, rest + 10000000 end
    local time = NSTime.new(seconds - TO_1970, rest * 100)
    local item = tree:add(shown, range, time)
    return range, item
end

local DATE_TIME = value_field("absolute_time", "DateTime", base.UTC)
add_type(13, "DateTime", 8, function(cursor, tree)
    local range, item = show_time(cursor, tree, DATE_TIME)
    -- an item that isn't shown has no text
    return item.text and item.text:match(": (.*)") or tostring(range:le_int64())
end)

local function guid_text(range)
    local tail = range(8, 8):bytes():tohex(true)
    return ("%08x-%04x-%04x-%s-%s"):format(range(0, 4):le_uint(), range(4, 2):le_uint(), range(6, 2):le_uint(), tail:sub(1, 4), tail:sub(5))
end

add_fixed(14, "Guid", "guid", 16, guid_text)

local SEVERITIES = {[0] = "Good", "Uncertain", "Bad", "reserved severity"}
local STATUS_CODE = value_field("uint32", "StatusCode", base.HEX)
local function show_status(cursor, tree, shown)
    local range, item = cursor:show(tree, shown, 4)
    local severity = SEVERITIES[floor(range:le_uint() / 2^30)]
    item:append_text(" (" .. severity .. ")")
    return ("0x%08x (%s)"):format(range:le_uint(), severity)
end
add_type(19, "StatusCode", 4, function(cursor, tree) return show_status(cursor, tree, STATUS_CODE) end)

-- The bytes of a UTF-8 character that begins there (RFC 3629), or nil.
local function character(text, at)
    local first, second = text:byte(at, at + 1)
    if first < 0x80 then return 1 end
    local size = first >= 0xf0 and 4 or first >= 0xe0 and 3 or 2
    local low = first == 0xe0 and 0xa0 or first == 0xf0 and 0x90 or 0x80
    local high = first == 0xed and 0x9f or first == 0xf4 and 0x8f or 0xbf
    local is_one = first >= 0xc2 and first <= 0xf4 and second and second >= low and second <= high
        and #text:sub(at + 1, at + size - 1):match("^[\128-\191]*") == size - 1
    return is_one and size or nil
end

local function is_utf8(text)
    local at = text:find("[\128-\255]")
    while at and at <= #text do
        local size = character(text, at)
        if not size then return false end
        at = at + size
    end
    return true
end

-- The bytes of a String or ByteString, or nil where it is null (5.2.2.4). Where `room` is given, so many bytes stand for it.
local function take_counted(cursor, room)
    local length = cursor:take(4):le_int()
    if length < -1 then fault(BAD_LENGTH, ("A length of %d"):format(length)) end
    if room and length > room then fault(BAD_LENGTH, ("A length of %d in the room for %d"):format(length, room)) end
    local start = cursor.at
    cursor:take(room or math.max(length, 0))
    return length >= 0 and cursor.tvb(start, length) or nil
end

local function show_text_of(cursor, tree, shown, range)
    if not range then
        tree:add(shown, cursor.tvb(cursor.at, 0)):append_text(" (null)")
        return "null"
    end
    local item = tree:add_packet_field(shown, range, ENC_UTF_8)
    if not is_utf8(raw(range)) then complain(item, BAD_TEXT, "The String isn't UTF-8") end
    return '"' .. (range:len() == 0 and "" or range:string(ENC_UTF_8)) .. '"'
end

local function show_bytes_of(cursor, tree, shown, range)
    local item = tree:add(shown, range or cursor.tvb(cursor.at, 0))
    if not range then item:append_text(" (null)") end
    return not range and "null" or range:len() == 0 and "0x" or "0x" .. range:bytes():tohex(true)
end

-- The types that a length stands before; `show_of` shows the bytes.
local function add_counted(number, name, kind, show_of, ...)
    local shown = value_field(kind, name, ...)
    add_type(number, name, 4, function(cursor, tree) return show_of(cursor, tree, shown, take_counted(cursor)) end)
    TYPES[number].show_of = function(cursor, tree, range) return show_of(cursor, tree, shown, range) end
end

add_counted(12, "String", "string", show_text_of, base.UNICODE)
add_counted(15, "ByteString", "bytes", show_bytes_of)
add_counted(16, "XmlElement", "string", show_text_of, base.UNICODE)

-- The types that are shown by a text of their parts.
local function add_told(number, name, least, text_of)
    local shown = value_field("string", name, base.UNICODE)
    add_type(number, name, least, function(cursor, tree, depth)
        local start = cursor.at
        local text = text_of(cursor, tree, depth)
        tree:add(shown, cursor:since(start), text)
        return text
    end)
end

local function text_of_string(cursor)
    local range = take_counted(cursor)
    if range and not is_utf8(raw(range)) then fault(BAD_TEXT, "The String isn't UTF-8") end
    return not range and "null" or range:len() == 0 and "" or range:string(ENC_UTF_8)
end

-- 5.2.2.9: the forms of a NodeId by the lower six bits of its first byte.
local NODE_ID_FORMS = {
    [0] = function(cursor) return 0, ("i=%d"):format(cursor:take(1):uint()) end,
    function(cursor) return cursor:take(1):uint(), ("i=%d"):format(cursor:take(2):le_uint()) end,
    function(cursor) return cursor:take(2):le_uint(), ("i=%d"):format(cursor:take(4):le_uint()) end,
    function(cursor) return cursor:take(2):le_uint(), "s=" .. text_of_string(cursor) end,
    function(cursor) return cursor:take(2):le_uint(), "g=" .. guid_text(cursor:take(16)) end,
    function(cursor)
        local space, range = cursor:take(2):le_uint(), take_counted(cursor)
        return space, "b=" .. (range and range:len() > 0 and range:bytes():tohex(true) or "")
    end,
}

local function node_id_text(cursor, most)
    local first = cursor:take(1):uint()
    local form = NODE_ID_FORMS[band(first, 0x3f)]
    if not form or first > most then fault(RESERVED, ("A NodeId that begins with 0x%02x"):format(first)) end
    local space, text = form(cursor)
    if band(first, 0x80) ~= 0 then text = "nsu=" .. text_of_string(cursor) .. ";" .. text
    elseif space ~= 0 then text = ("ns=%d;%s"):format(space, text) end
    if band(first, 0x40) ~= 0 then text = ("svr=%d;"):format(cursor:take(4):le_uint()) .. text end
    return text
end

add_told(17, "NodeId", 2, function(cursor) return node_id_text(cursor, 0x3f) end)
add_told(18, "ExpandedNodeId", 2, function(cursor) return node_id_text(cursor, 0xff) end)
add_told(20, "QualifiedName", 6, function(cursor)
    local space = cursor:take(2):le_uint()
    return ("%d:%s"):format(space, text_of_string(cursor))
end)

local LOCALIZED_TEXT = flags("value.localizedtext.mask", "LocalizedText mask", {
    {"locale", 0x01, "Locale"}, {"text", 0x02, "Text"}, {"reserved", 0xfc, "Reserved"}})
add_told(21, "LocalizedText", 1, function(cursor, tree)
    local mask = LOCALIZED_TEXT:show(cursor, tree)
    local locale = mask.locale and "[" .. text_of_string(cursor) .. "]" or ""
    return locale .. (mask.text and text_of_string(cursor) or "")
end)

-- 5.2.2.15
local BODIES = {[0] = "no body", "ByteString", "XmlElement"}
field("bytes", "value.extensionobject.body", "Body")
add_told(22, "ExtensionObject", 3, function(cursor, tree)
    local text, encoding = node_id_text(cursor, 0x3f), cursor:take(1):uint()
    if not BODIES[encoding] then fault(RESERVED, ("An ExtensionObject of the encoding %d"):format(encoding)) end
    local range = encoding ~= 0 and take_counted(cursor)
    if range then tree:add(SHOWN["value.extensionobject.body"], range) end
    return text .. ", " .. BODIES[encoding] .. (range and (" of %d bytes"):format(range:len()) or "")
end)

-- 5.2.2.12
local DIAGNOSTIC_INFO = flags("value.diagnosticinfo.mask", "DiagnosticInfo mask", {
    {"symbolic_id", 0x01, "SymbolicId"}, {"namespace", 0x02, "NamespaceUri"}, {"text", 0x04, "LocalizedText"}, {"locale", 0x08, "Locale"},
    {"additional", 0x10, "AdditionalInfo"}, {"inner_status", 0x20, "InnerStatusCode"}, {"inner", 0x40, "InnerDiagnosticInfo"},
    {"reserved", 0x80, "Reserved"}})
local function diagnostic_text(cursor, tree, depth)
    if depth > DEEPEST then fault(TOO_DEEP, "Values nested more than 100 deep") end
    local mask, told = DIAGNOSTIC_INFO:show(cursor, tree), {}
    for _, key in ipairs({"symbolic_id", "namespace", "locale", "text"}) do
        if mask[key] then told[#told + 1] = ("%s %d"):format(key, cursor:take(4):le_int()) end
    end
    if mask.additional then told[#told + 1] = '"' .. text_of_string(cursor) .. '"' end
    if mask.inner_status then told[#told + 1] = ("0x%08x"):format(cursor:take(4):le_uint()) end
    if mask.inner then told[#told + 1] = "(" .. diagnostic_text(cursor, tree, depth + 1) .. ")" end
    return table.concat(told, ", ")
end
add_told(25, "DiagnosticInfo", 1, diagnostic_text)

-- ---- Variants (5.2.2.16)

local TYPE_NAMES = {[0] = "null"}
local VALUE_VARIANT, VALUE_DATA_VALUE = value_field("none", "Variant"), value_field("none", "DataValue")
field("none", "array", "Array")
field("int32", "array.length", "ArrayLength")
field("int32", "array.dimension_count", "ArrayDimensionsLength")
field("int32", "array.dimension", "ArrayDimension")

local show_variant, show_data_value

add_type(24, "Variant", 1, function(cursor, tree, depth)
    local item = tree:add(VALUE_VARIANT, cursor.tvb(cursor.at, 0))
    return show_variant(cursor, item, depth + 1)
end)
add_type(23, "DataValue", 1, function(cursor, tree, depth)
    local item = tree:add(VALUE_DATA_VALUE, cursor.tvb(cursor.at, 0))
    return show_data_value(cursor, item, depth + 1)
end)
for number, it in pairs(TYPES) do TYPE_NAMES[number] = it.name end
-- the types to come are written as ByteStrings
for number = 26, 31 do TYPE_NAMES[number], TYPES[number] = "ByteString (of a type to come)", TYPES[15] end

local VARIANT = flags("variant", "Variant", {
    {"type", 0x3f, "Type", TYPE_NAMES}, {"dimensions", 0x40, "ArrayDimensions"}, {"array", 0x80, "Array"}})

local function show_dimensions(cursor, tree, length)
    local range, item = cursor:show(tree, SHOWN["array.dimension_count"], 4)
    local count, product = range:le_int(), 1
    if count < -1 then fault(BAD_LENGTH, ("%d dimensions"):format(count)) end
    if 4 * count > cursor:left() then fault(SHORT, ("%d dimensions are told, and %d bytes are there"):format(count, cursor:left())) end
    for _ = 1, count do product = product * (cursor:show(tree, SHOWN["array.dimension"], 4)):le_int() end
    if count > 0 and product ~= length then complain(item, FORBIDDEN, ("The product of the dimensions isn't %d"):format(length)) end
end

local function show_array(cursor, tree, it, has_dimensions, depth)
    local start, item = cursor.at, tree:add(SHOWN.array, cursor.tvb(cursor.at, 0))
    local length = (cursor:show(item, SHOWN["array.length"], 4)):le_int()
    if length < -1 then fault(BAD_LENGTH, ("An array of %d elements"):format(length)) end
    if length * it.least > cursor:left() then
        fault(SHORT, ("%d elements are told, and %d bytes are there"):format(length, cursor:left()))
    end
    for _ = 1, length do it.show(cursor, item, depth) end
    if has_dimensions then show_dimensions(cursor, item, length) end
    item:set_len(cursor.at - start)
    return length < 0 and it.name .. "[] null" or ("%s[%d]"):format(it.name, length)
end

function show_variant(cursor, tree, depth)
    if depth > DEEPEST then fault(TOO_DEEP, "Values nested more than 100 deep") end
    local mask, item = VARIANT:show(cursor, tree)
    local it = TYPES[mask.type]
    if not it and mask.type ~= 0 then fault(RESERVED, ("There is no built-in type %d"):format(mask.type)) end
    if mask.dimensions and not mask.array then complain(item, FORBIDDEN, "ArrayDimensions without an array") end
    if not it then
        if mask.array then complain(item, FORBIDDEN, "An array without a type") end
        return "null"
    end
    if mask.array then return show_array(cursor, tree, it, mask.dimensions, depth) end
    if mask.type == NUMBER_OF_TYPE.Variant then complain(item, FORBIDDEN, "A Variant has no Variant but in an array") end
    return it.name .. " " .. it.show(cursor, tree, depth)
end

-- ---- DataValues (5.2.2.17)

local DATA_VALUE = flags("data_value", "DataValue", {
    {"has_value", 0x01, "Value"}, {"has_status", 0x02, "StatusCode"}, {"has_source_timestamp", 0x04, "SourceTimestamp"},
    {"has_server_timestamp", 0x08, "ServerTimestamp"}, {"has_source_picoseconds", 0x10, "SourcePicoseconds"},
    {"has_server_picoseconds", 0x20, "ServerPicoseconds"}, {"reserved", 0xc0, "Reserved"}})
field("uint32", "data_value.status", "StatusCode", base.HEX)
field("absolute_time", "data_value.source_timestamp", "SourceTimestamp", base.UTC)
field("uint16", "data_value.source_picoseconds", "SourcePicoseconds")
field("absolute_time", "data_value.server_timestamp", "ServerTimestamp", base.UTC)
field("uint16", "data_value.server_picoseconds", "ServerPicoseconds")

-- Steps of 10 ps beyond a time of steps of 100 ns.
local function show_picoseconds(cursor, tree, shown, has_time)
    local range, item = cursor:show(tree, shown, 2)
    if range:le_uint() >= 10000 then complain(item, FORBIDDEN, "Picoseconds are below 10,000, in steps of 10 ps") end
    if not has_time then complain(item, FORBIDDEN, "Picoseconds without a time that they belong to") end
end

function show_data_value(cursor, tree, depth)
    local mask, text = DATA_VALUE:show(cursor, tree), "no value"
    if mask.has_value then text = show_variant(cursor, tree, depth) end
    if mask.has_status then text = text .. ", " .. show_status(cursor, tree, SHOWN["data_value.status"]) end
    if mask.has_source_timestamp then show_time(cursor, tree, SHOWN["data_value.source_timestamp"]) end
    if mask.has_source_picoseconds then
        show_picoseconds(cursor, tree, SHOWN["data_value.source_picoseconds"], mask.has_source_timestamp)
    end
    if mask.has_server_timestamp then show_time(cursor, tree, SHOWN["data_value.server_timestamp"]) end
    if mask.has_server_picoseconds then
        show_picoseconds(cursor, tree, SHOWN["data_value.server_picoseconds"], mask.has_server_timestamp)
    end
    return text
end

-- ------------------------------------------------------------------------------------------------------------------- preferences

uadp.prefs.ports = Pref.range("UDP ports", "4840", "UDP ports of UADP messages", 65535)
uadp.prefs.keys = Pref.string("Keys", "", "TOKEN:SIGNING:ENCRYPTING:NONCE in hexadecimal digits, and :0 where the first block's number is 0; "
    .. "keys are parted by spaces")
uadp.prefs.fields = Pref.string("Fields", "", "PUBLISHER GROUP WRITER: NAME KIND, NAME KIND LENGTH, ..; WRITER is WRITER@OFFSET+SIZE for a slot "
    .. "of a fixed layout; PUBLISHER is u8:5 or alike, or *, GROUP a number or *; writers are parted by semicolons")

local function bytes_of_hex(digits) return (digits:gsub("..", function(pair) return string.char(tonumber(pair, 16)) end)) end

local function key_of_word(word)
    local token, signing, encrypting, nonce, rest = word:match("^(%d+):(%x+):(%x+):(%x+)(.*)$")
    local first_block = rest == "" and 1 or rest == ":0" and 0 or rest == ":1" and 1
    if not first_block or #signing ~= 64 or #encrypting ~= 32 and #encrypting ~= 64 or #nonce ~= 8 then return nil end
    return tonumber(token), {mac = hmac_of(bytes_of_hex(signing)), schedule = key_schedule(bytes_of_hex(encrypting)),
        nonce = bytes_of_hex(nonce), first_block = first_block}
end

-- The keys by their tokens; groups may have different ones under one token.
local function keys_of_text(text)
    local keys = {}
    for word in text:gmatch("%S+") do
        local token, key = key_of_word(word)
        if not token then return {wrong = "Keys: a word isn't TOKEN:SIGNING:ENCRYPTING:NONCE with 64, 32 or 64, and 8 digits"} end
        keys[token] = keys[token] or {}
        table.insert(keys[token], key)
    end
    return keys
end

local function field_of_text(text)
    local name, kind, room = text:match("^%s*(%S+)%s+(%w+)%s*(%d*)%s*$")
    local number = NUMBER_OF_TYPE[kind]
    if not number or room ~= "" and not TYPES[number].show_of then return nil end
    return {name = name, type = TYPES[number], room = tonumber(room)}
end

local function writer_of_text(text)
    local publisher, group, writer, slot, names = text:match("^%s*(%S+)%s+(%S+)%s+(%d+)(%S-)%s*:%s(.*)$")
    if not publisher or group ~= "*" and not tonumber(group) then return nil end
    local offset, size = slot:match("^@(%d+)%+(%d+)$")
    if slot ~= "" and not offset then return nil end
    local it = {publisher = publisher:gsub("%%(%x%x)", bytes_of_hex), group = group, writer = tonumber(writer),
        offset = tonumber(offset), size = tonumber(size), fields = {}}
    for part in names:gmatch("[^,]+") do
        local described = field_of_text(part)
        if not described then return nil end
        table.insert(it.fields, described)
    end
    return it
end

local function writers_of_text(text)
    local writers = {}
    for part in text:gmatch("[^;]+") do
        local writer = writer_of_text(part)
        if writer then table.insert(writers, writer)
        elseif part:find("%S") then return {wrong = "Fields: not understood is" .. part} end
    end
    return writers
end

-- What a preference says, read anew where its text is another one.
local function preference(name, of_text)
    local text, told
    return function()
        if uadp.prefs[name] ~= text then
            text = uadp.prefs[name]
            told = of_text(text)
        end
        return told
    end
end

local named_keys, named_writers = preference("keys", keys_of_text), preference("fields", writers_of_text)

local function is_of(named, message)
    return (named.publisher == "*" or named.publisher == message.publisher) and (named.group == "*" or tonumber(named.group) == message.group)
end

-- The fields of a writer, or nil.
local function fields_of(message, writer)
    for _, named in ipairs(named_writers()) do
        if named.writer == writer and is_of(named, message) then return named.fields end
    end
end

-- ------------------------------------------------------------------------------------------------ what earlier datagrams have told

-- The number of each writer and group that was told last, the chunks of each writer, and what was found of each frame when it was first
-- seen: Wireshark asks for a frame again and again, in any order.
local last_numbers, chunked, found

function uadp.init() last_numbers, chunked, found = {}, {}, {} end

-- What `find` gave at this place of the frame when it was first seen.
local function first_found(message, find)
    local number = message.pinfo.number
    message.finds = message.finds + 1
    local of_frame = found[number] or {}
    found[number] = of_frame
    if not message.pinfo.visited then of_frame[message.finds] = find() end
    return of_frame[message.finds]
end

-- OPC 10000-14 7.2.3: whether a number of 16 bits is newer than the last one.
local function is_newer(number, last) return (65535 + number - last) % 65536 < 16384 end

-- What is told of numbers that follow one another.
local function numbering(name)
    return {
        expected = field("uint16", name .. ".expected", "Expected number"),
        missing = field("uint16", name .. ".missing", "Missing numbers"),
        gap = expert_info(name .. ".gap", "Numbers are missing", "SEQUENCE", "WARN"),
        older = expert_info(name .. ".older", "A number that isn't newer", "SEQUENCE", "NOTE"),
    }
end

local OF_GROUP, OF_WRITER = numbering("group_sequence"), numbering("sequence")

-- Tells at an item whether a number is the one behind the last of its source. That of a keep-alive is the next one to come.
local function follow(message, item, of, source, number, is_keep_alive)
    if message.is_forged then return end
    local place = is_keep_alive and (number - 1) % 65536 or number
    local last = first_found(message, function()
        local key = message.source .. source
        local last = last_numbers[key]
        if not last or is_newer(place, last) then last_numbers[key] = place end
        return last
    end)
    if not last then return end
    if not is_newer(place, last) then
        if not is_keep_alive then complain(item, of.older, ("The number isn't newer than %d"):format(last)) end
        return
    end
    local missing = (place - last) % 65536 - (is_keep_alive and 0 or 1)
    if missing == 0 then return end
    local expected = (last + 1) % 65536
    item:add(of.expected, expected):set_generated()
    item:add(of.missing, missing):set_generated()
    complain(item, of.gap, ("%d missing: %d was expected"):format(missing, expected))
end

-- ----------------------------------------------------------------------------------------- DataSetMessages (OPC 10000-14 7.2.4.5)

local ENCODINGS = {[0] = "Variant", "RawData", "DataValue", "reserved"}
local VARIANTS, RAW_DATA = 0, 1
local MESSAGE_TYPES = {[0] = "key frame", "delta frame", "event", "keep-alive"}
local DELTA_FRAME, KEEP_ALIVE = 1, 3

field("none", "message", "DataSetMessage")
local DATA_SET_FLAGS1 = flags("message.flags1", "DataSetFlags1", {
    {"valid", 0x01, "Valid"}, {"field_encoding", 0x06, "Field encoding", ENCODINGS}, {"sequence_number", 0x08, "SequenceNumber"},
    {"status", 0x10, "Status"}, {"major_version", 0x20, "MajorVersion"}, {"minor_version", 0x40, "MinorVersion"},
    {"flags2", 0x80, "DataSetFlags2"}})
local DATA_SET_FLAGS2 = flags("message.flags2", "DataSetFlags2", {
    {"type", 0x0f, "Type", MESSAGE_TYPES}, {"timestamp", 0x10, "Timestamp"}, {"picoseconds", 0x20, "Picoseconds"},
    {"reserved", 0xc0, "Reserved"}})
field("uint8", "message.type", "Type", base.DEC, MESSAGE_TYPES)
field("uint16", "sequence_number", "DataSetMessageSequenceNumber")
field("absolute_time", "message.timestamp", "Timestamp", base.UTC)
field("uint16", "message.picoseconds", "Picoseconds")
field("uint16", "message.status", "Status", base.HEX)
field("uint32", "message.major_version", "ConfigurationVersionMajorVersion")
field("uint32", "message.minor_version", "ConfigurationVersionMinorVersion")
field("uint16", "message.field_count", "FieldCount")
field("none", "field", "Field")
field("uint16", "field.index", "Index")
field("string", "field.name", "Name")
field("bytes", "raw_data", "RawData")
field("uint16", "writer_id", "DataSetWriterId")

local function show_raw(cursor, item, described)
    local it = described.type
    if not described.room then return it.name .. " " .. it.show(cursor, item, 1) end
    return it.name .. " " .. it.show_of(cursor, item, take_counted(cursor, described.room))
end

local FIELD_READERS = {
    [VARIANTS] = function(cursor, item) return show_variant(cursor, item, 1) end,
    [RAW_DATA] = show_raw,
    [2] = function(cursor, item) return show_data_value(cursor, item, 1) end,
}

-- A field; its index stands before it in a delta frame.
local function show_field(cursor, tree, front, index)
    local start, item = cursor.at, tree:add(SHOWN.field, cursor.tvb(cursor.at, 0))
    if index then item:add(SHOWN["field.index"], index):set_generated()
    else index = (cursor:show(item, SHOWN["field.index"], 2)):le_uint() end
    local described = front.fields and front.fields[index + 1]
    if described then item:add(SHOWN["field.name"], described.name):set_generated() end
    if not described and front.encoding == RAW_DATA then fault(NO_FIELDS, ("RawData of field %d, which has no kind"):format(index)) end
    local text = FIELD_READERS[front.encoding](cursor, item, described)
    item:set_len(cursor.at - start)
    item:set_text(("Field %d%s: %s"):format(index, described and " " .. described.name or "", text))
end

local function show_fields(cursor, item, front)
    local is_delta = front.type == DELTA_FRAME
    if front.encoding ~= RAW_DATA or is_delta then
        local count = (cursor:show(item, SHOWN["message.field_count"], 2)):le_uint()
        for index = 0, count - 1 do show_field(cursor, item, front, not is_delta and index) end
    elseif front.fields then
        for index = 0, #front.fields - 1 do show_field(cursor, item, front, index) end
    else
        complain(item, NO_FIELDS, "RawData of fields that the preference Fields doesn't name")
        if cursor:left() > 0 then cursor:show(item, SHOWN.raw_data, cursor:left()) end
    end
end

-- What stands before the fields, or nil where the message isn't valid.
local function show_front(cursor, item)
    local flags1, shown1 = DATA_SET_FLAGS1:show(cursor, item)
    if not flags1.valid then
        complain(shown1, INVALID, "The message isn't valid: the rest of it isn't to be read")
        return nil
    end
    local flags2 = DATA_SET_FLAGS2:show(cursor, item, flags1.flags2)
    local front = {encoding = flags1.field_encoding, type = flags2.type}
    item:add(SHOWN["message.type"], front.type):set_generated()
    if flags1.sequence_number then
        local range, shown = cursor:show(item, SHOWN.sequence_number, 2)
        front.number, front.number_item = range:le_uint(), shown
    end
    if flags2.timestamp then show_time(cursor, item, SHOWN["message.timestamp"]) end
    if flags2.picoseconds then show_picoseconds(cursor, item, SHOWN["message.picoseconds"], flags2.timestamp) end
    if flags1.status then cursor:show(item, SHOWN["message.status"], 2) end
    if flags1.major_version then cursor:show(item, SHOWN["message.major_version"], 4) end
    if flags1.minor_version then cursor:show(item, SHOWN["message.minor_version"], 4) end
    return front
end

local function show_rest(cursor, item, is_open)
    if cursor:left() == 0 then return end
    local range = cursor:take(cursor:left())
    if is_zero(range) then item:add(SHOWN.padding, range)
    elseif is_open then complain(item:add(SHOWN.undecoded_bytes, range), NO_FIELDS, "Slots that the preference Fields doesn't name")
    else complain(item:add(SHOWN.undecoded_bytes, range), TRAILING, "Bytes behind the message that aren't 0") end
end

local function told_number(form, number) return number and form:format(number) or "" end

local function told_of(writer, front)
    return told_number("writer %d ", writer) .. (MESSAGE_TYPES[front.type] or "message") .. told_number(" %d", front.number)
end

local function read_message(cursor, item, message, writer, is_open)
    local front = show_front(cursor, item)
    if not front then
        if cursor:left() > 0 then cursor:show(item, SHOWN.undecoded_bytes, cursor:left()) end
        return
    end
    local told = told_of(writer, front)
    item:append_text(", " .. told)
    table.insert(message.told, told)
    if front.number then
        follow(message, front.number_item, OF_WRITER, ", writer " .. tostring(writer), front.number, front.type == KEEP_ALIVE)
    end
    if not MESSAGE_TYPES[front.type] then fault(RESERVED, ("There is no DataSetMessage type %d"):format(front.type)) end
    if front.type ~= KEEP_ALIVE then
        if not FIELD_READERS[front.encoding] then fault(RESERVED, "There is no field encoding 3") end
        front.fields = fields_of(message, writer)
        show_fields(cursor, item, front)
    end
    show_rest(cursor, item, is_open)
end

-- A DataSetMessage in all bytes of a cursor. Behind one that `is_open` others may stand.
local function show_message(cursor, tree, message, writer, is_open)
    local item = tree:add(SHOWN.message, cursor.tvb(cursor.at, cursor:left()))
    reads(cursor, item, read_message, message, writer, is_open)
    return item
end

-- ------------------------------------------------------------------------------------ headers of NetworkMessages (OPC 10000-14 7.2.4.4)

local NETWORK_TYPES = {[0] = "DataSetMessages", "discovery probe", "discovery announcement"}
local PUBLISHER_TYPES = {[0] = "Byte", "UInt16", "UInt32", "UInt64", "String"}
local TEXT = 4

local UADP_FLAGS = flags("flags", "UADPFlags", {
    {"version", 0x0f, "UADPVersion"}, {"publisher_id", 0x10, "PublisherId"}, {"group_header", 0x20, "GroupHeader"},
    {"payload_header", 0x40, "PayloadHeader"}, {"extended_flags1", 0x80, "ExtendedFlags1"}})
local EXTENDED_FLAGS1 = flags("extended_flags1", "ExtendedFlags1", {
    {"publisher_id_type", 0x07, "PublisherId type", PUBLISHER_TYPES}, {"data_set_class_id", 0x08, "DataSetClassId"},
    {"security_header", 0x10, "SecurityHeader"}, {"timestamp", 0x20, "Timestamp"}, {"picoseconds", 0x40, "Picoseconds"},
    {"extended_flags2", 0x80, "ExtendedFlags2"}})
local EXTENDED_FLAGS2 = flags("extended_flags2", "ExtendedFlags2", {
    {"chunk", 0x01, "Chunk"}, {"promoted_fields", 0x02, "PromotedFields"}, {"message_type", 0x1c, "NetworkMessage type", NETWORK_TYPES},
    {"reserved", 0xe0, "Reserved"}})
local GROUP_FLAGS = flags("group_flags", "GroupFlags", {
    {"writer_group_id", 0x01, "WriterGroupId"}, {"group_version", 0x02, "GroupVersion"},
    {"network_message_number", 0x04, "NetworkMessageNumber"}, {"sequence_number", 0x08, "SequenceNumber"}, {"reserved", 0xf0, "Reserved"}})
local SECURITY_FLAGS = flags("security_flags", "SecurityFlags", {
    {"signed", 0x01, "NetworkMessage signed"}, {"encrypted", 0x02, "NetworkMessage encrypted"}, {"footer", 0x04, "SecurityFooter"},
    {"force_key_reset", 0x08, "Force key reset"}, {"reserved", 0xf0, "Reserved"}})

field("uint64", "publisher_id", "PublisherId")
field("string", "publisher_id.text", "PublisherId", base.UNICODE)
field("guid", "data_set_class_id", "DataSetClassId")
field("uint16", "writer_group_id", "WriterGroupId")
field("uint32", "group_version", "GroupVersion")
field("uint16", "network_message_number", "NetworkMessageNumber")
field("uint16", "group_sequence_number", "SequenceNumber")
field("uint8", "message_count", "Count")
field("absolute_time", "timestamp", "Timestamp", base.UTC)
field("uint16", "picoseconds", "Picoseconds")
field("uint16", "promoted_fields.size", "Size of PromotedFields")
field("bytes", "promoted_fields", "PromotedFields")
field("uint32", "security_token_id", "SecurityTokenId")
field("uint8", "nonce_length", "NonceLength")
field("bytes", "message_nonce", "MessageNonce")
field("bytes", "message_nonce.random", "Random")
field("uint32", "message_nonce.sequence_number", "SequenceNumber")
field("uint16", "security_footer.size", "SecurityFooterSize")

-- The text of a PublisherId, as configurations and preferences spell it.
local function show_publisher(cursor, tree, number_of_type)
    if number_of_type == TEXT then
        local range = take_counted(cursor)
        show_text_of(cursor, tree, SHOWN["publisher_id.text"], range)
        return "text:" .. (range and raw(range) or "")
    end
    if number_of_type > TEXT then fault(RESERVED, ("There is no PublisherId type %d"):format(number_of_type)) end
    local range = cursor:show(tree, SHOWN.publisher_id, 2^number_of_type)
    return ("u%d:%s"):format(8 * 2^number_of_type, tostring(range:le_uint64()))
end

-- An id of which 0 is the null value.
local function show_id(cursor, tree, shown)
    local range, item = cursor:show(tree, shown, 2)
    if range:le_uint() == 0 then complain(item, FORBIDDEN, "The id 0 is that of none") end
    return range:le_uint()
end

local function show_group_header(cursor, tree, message)
    local group_flags = GROUP_FLAGS:show(cursor, tree)
    if group_flags.writer_group_id then message.group = show_id(cursor, tree, SHOWN.writer_group_id) end
    if group_flags.group_version then cursor:show(tree, SHOWN.group_version, 4) end
    if group_flags.network_message_number then cursor:show(tree, SHOWN.network_message_number, 2) end
    if group_flags.sequence_number then
        local range, item = cursor:show(tree, SHOWN.group_sequence_number, 2)
        message.number, message.number_item = range:le_uint(), item
    end
end

-- The payload header: the writers of the messages, or the one of a chunk.
local function show_writers(cursor, tree, is_chunk)
    if is_chunk then return {show_id(cursor, tree, SHOWN.writer_id)} end
    local range, item = cursor:show(tree, SHOWN.message_count, 1)
    if range:uint() == 0 then complain(item, FORBIDDEN, "A payload header names at least one message") end
    local writers = {}
    for at = 1, range:uint() do writers[at] = show_id(cursor, tree, SHOWN.writer_id) end
    return writers
end

local function show_promoted(cursor, tree, message)
    local size = (cursor:show(tree, SHOWN["promoted_fields.size"], 2)):le_uint()
    local range, item = cursor:show(tree, SHOWN.promoted_fields, size)
    if message.writers and #message.writers > 1 then complain(item, FORBIDDEN, "Promoted fields stand with one message alone") end
    return range
end

local function show_nonce(cursor, tree, is_encrypted)
    local length = (cursor:show(tree, SHOWN.nonce_length, 1)):uint()
    local range, item = cursor:show(tree, SHOWN.message_nonce, length)
    if length == 8 then
        item:add(SHOWN["message_nonce.random"], range(0, 4))
        item:add_le(SHOWN["message_nonce.sequence_number"], range(4, 4))
    elseif is_encrypted then complain(item, FORBIDDEN, "The nonce of AES-CTR has 8 bytes") end
    return raw(range)
end

local function show_security_header(cursor, tree)
    local it, item = SECURITY_FLAGS:show(cursor, tree)
    if it.encrypted and not it.signed then complain(item, FORBIDDEN, "No security mode encrypts without a signature") end
    it.token = (cursor:show(tree, SHOWN.security_token_id, 4)):le_uint()
    it.nonce = show_nonce(cursor, tree, it.encrypted)
    it.footer_size = it.footer and (cursor:show(tree, SHOWN["security_footer.size"], 2)):le_uint() or 0
    return it
end

-- Shows the header and keeps in `message` what the payload needs of it.
local function show_header(cursor, tree, message)
    local head, item = UADP_FLAGS:show(cursor, tree)
    if head.version ~= 1 then fault(BAD_VERSION, ("The version is %d"):format(head.version)) end
    local extended1 = EXTENDED_FLAGS1:show(cursor, tree, head.extended_flags1)
    local extended2, item2 = EXTENDED_FLAGS2:show(cursor, tree, extended1.extended_flags2)
    message.type, message.is_chunk = extended2.message_type, extended2.chunk
    if not NETWORK_TYPES[message.type] then fault(RESERVED, ("There is no NetworkMessage type %d"):format(message.type)) end
    if message.is_chunk and not head.payload_header then complain(item2, FORBIDDEN, "A chunk without a payload header") end
    if head.publisher_id then message.publisher = show_publisher(cursor, tree, extended1.publisher_id_type) end
    if extended1.data_set_class_id then cursor:show(tree, SHOWN.data_set_class_id, 16) end
    if head.group_header then show_group_header(cursor, tree, message) end
    if head.payload_header then message.writers = show_writers(cursor, tree, message.is_chunk) end
    if extended1.timestamp then show_time(cursor, tree, SHOWN.timestamp) end
    if extended1.picoseconds then show_picoseconds(cursor, tree, SHOWN.picoseconds, extended1.timestamp) end
    if extended2.promoted_fields then show_promoted(cursor, tree, message) end
    if extended1.security_header then message.security = show_security_header(cursor, tree) end
end

-- ------------------------------------------------------------------------------------ message security (OPC 10000-14 7.2.4.4.3)

local SIGNATURE_SIZE = 32
local BAD, GOOD, UNVERIFIED = 0, 1, 2
field("bytes", "encrypted_payload", "Encrypted payload")
field("bytes", "security_footer", "SecurityFooter")
field("bytes", "signature", "Signature")
field("uint8", "signature.status", "Signature status", base.DEC, {[0] = "Bad", "Good", "Unverified"})

-- The key whose signature stands at the end, if the preference names it, and the status.
local function key_of_signature(message, signed, signature)
    local keys = named_keys()[message.security.token]
    if not keys then return nil, UNVERIFIED end
    for _, key in ipairs(keys) do
        if key.mac(signed) == signature then return key, GOOD end
    end
    return nil, BAD
end

local function show_signature(cursor, tree, message)
    local signed = cursor.at > 0 and cursor.tvb(0, cursor.at):raw() or ""
    local range, item = cursor:show(tree, SHOWN.signature, SIGNATURE_SIZE)
    local key, status = key_of_signature(message, signed, raw(range))
    item:add(SHOWN["signature.status"], status):set_generated()
    if status == BAD then complain(item, BAD_SIGNATURE, "No key of the preference Keys gives this signature") end
    if status == UNVERIFIED then complain(item, NO_KEY, ("There is no key of token %d"):format(message.security.token)) end
    message.is_forged = status == BAD
    return key
end

local function decrypted(payload, security, key)
    local text = counter_mode(key.schedule, key.nonce .. security.nonce, key.first_block, raw(payload.tvb(payload.at, payload:left())))
    return cursor_of(ByteArray.new(text, true):tvb("Decrypted UADP payload"), 0, #text)
end

-- The payload that can be read, and the offset in the datagram at which its buffer begins; nil where it stays encrypted. `cursor` stands
-- behind the header.
local function show_security(cursor, tree, message)
    local security = message.security
    if not security then return cursor:part(cursor:left()), 0 end
    local size = cursor:left() - security.footer_size - (security.signed and SIGNATURE_SIZE or 0)
    if size < 0 or message.is_cut then fault(SHORT, "The datagram ends before footer and signature do") end
    local payload = cursor:part(size)
    if security.footer_size > 0 then cursor:show(tree, SHOWN.security_footer, security.footer_size) end
    local key
    if security.signed then key = show_signature(cursor, tree, message)
    else key = (named_keys()[security.token] or {})[1] end
    if not security.encrypted or size == 0 then return payload, 0 end
    if key and #security.nonce == 8 then return decrypted(payload, security, key), payload.at end
    local item = tree:add(SHOWN.encrypted_payload, payload.tvb(payload.at, size))
    complain(item, NO_KEY, "No key that opens it is known")
    return nil
end

-- ------------------------------------------------------------------------------------------- chunks (OPC 10000-14 7.2.4.4.4)

local KEPT_MESSAGES = 8
field("none", "chunk", "Chunk")
field("uint16", "chunk.sequence_number", "MessageSequenceNumber")
field("uint32", "chunk.offset", "ChunkOffset")
field("uint32", "chunk.total_size", "TotalSize")
field("int32", "chunk.length", "ChunkData length")
field("bytes", "chunk.data", "ChunkData")
field("framenum", "chunk.reassembled_in", "Reassembled in")

-- Pieces that share no byte, by their offsets, once a new one is laid over them.
local function laid_over(pieces, at, data)
    local out, stop = {{at = at, data = data}}, at + #data
    for _, piece in ipairs(pieces) do
        local before, behind = piece.data:sub(1, math.max(at - piece.at, 0)), piece.data:sub(math.max(stop - piece.at, 0) + 1)
        if #before > 0 then table.insert(out, {at = piece.at, data = before}) end
        if #behind > 0 then table.insert(out, {at = math.max(stop, piece.at), data = behind}) end
    end
    table.sort(out, function(a, b) return a.at < b.at end)
    return out
end

-- All bytes of a message, or nil while some are missing.
local function joined(pieces, total)
    local at, out = 0, {}
    for _, piece in ipairs(pieces) do
        if piece.at ~= at then return nil end
        out[#out + 1] = piece.data
        at = at + #piece.data
    end
    return at == total and table.concat(out) or nil
end

-- The message of this number: the last ones of each writer are kept.
local function message_of_chunk(source, number, total)
    local kept = chunked[source] or {}
    chunked[source] = kept
    for _, it in ipairs(kept) do
        if it.number == number then return it end
    end
    local it = {number = number, total = total, pieces = {}}
    table.insert(kept, 1, it)
    kept[KEPT_MESSAGES + 1] = nil
    return it
end

-- Lays a chunk to those of its message: the message, why the chunk isn't laid in, and, of its last chunk, the whole bytes.
local function lay_in(message, writer, chunk)
    local it = message_of_chunk(message.source .. ", writer " .. tostring(writer), chunk.number, chunk.total)
    if it.total ~= chunk.total then return {of = it, why = BAD_CHUNK, text = ("The other chunks tell a total size of %d"):format(it.total)} end
    if it.whole_in then return {of = it, why = REPEATED_CHUNK, text = "The message was whole before"} end
    it.pieces = laid_over(it.pieces, chunk.offset, chunk.data)
    local whole = joined(it.pieces, it.total)
    if whole then it.whole_in, it.pieces = message.pinfo.number, nil end
    return {of = it, whole = whole}
end

local function show_chunk_header(cursor, item)
    local chunk = {}
    chunk.number = (cursor:show(item, SHOWN["chunk.sequence_number"], 2)):le_uint()
    chunk.offset = (cursor:show(item, SHOWN["chunk.offset"], 4)):le_uint()
    chunk.total = (cursor:show(item, SHOWN["chunk.total_size"], 4)):le_uint()
    local length = (cursor:show(item, SHOWN["chunk.length"], 4)):le_int()
    if length < -1 then fault(BAD_LENGTH, ("A length of %d"):format(length)) end
    chunk.data = raw((cursor:show(item, SHOWN["chunk.data"], math.max(length, 0))))
    return chunk
end

local function read_chunk(cursor, item, message, tree, writer)
    local chunk = show_chunk_header(cursor, item)
    local told = told_number("writer %d ", writer) .. ("chunk of %d"):format(chunk.number)
    item:append_text(", " .. told)
    table.insert(message.told, told)
    show_rest(cursor, item)
    if #chunk.data == 0 then fault(BAD_CHUNK, "A chunk without bytes") end
    if chunk.offset + #chunk.data > chunk.total then fault(BAD_CHUNK, "The chunk passes the message's total size") end
    if message.is_forged then return end
    local laid = first_found(message, function() return lay_in(message, writer, chunk) end)
    if not laid then return end
    if laid.why then complain(item, laid.why, laid.text) end
    if laid.of.whole_in then item:add(SHOWN["chunk.reassembled_in"], laid.of.whole_in):set_generated() end
    if not laid.whole then return end
    local whole = ByteArray.new(laid.whole, true):tvb("Reassembled UADP message")
    if message.type == 0 then show_message(cursor_of(whole, 0, #laid.whole), tree, message, writer)
    else complain(tree:add(SHOWN.undecoded_bytes, whole()), UNREAD, "A " .. NETWORK_TYPES[message.type] .. " isn't decoded") end
end

-- ---------------------------------------------------------------------------------------------------------- payloads and datagrams

field("uint16", "message_size", "Size")

-- Messages that a payload header names: with more than one, their sizes stand before them.
local function show_messages(payload, tree, message)
    local sizes, writers = {payload:left()}, message.writers
    if #writers ~= 1 then
        for at in ipairs(writers) do sizes[at] = (payload:show(tree, SHOWN.message_size, 2)):le_uint() end
    end
    for at, writer in ipairs(writers) do
        if sizes[at] > payload:left() then
            fault(BAD_SIZES, ("Message %d of %d has %d bytes, and %d are there"):format(at, #writers, sizes[at], payload:left()))
        end
        show_message(payload:part(sizes[at]), tree, message, writer)
    end
    show_rest(payload, tree)
end

-- A slot of a fixed layout: its offset counts from the datagram's first byte, the payload's buffer begins at `begin`.
local function show_slot(payload, tree, message, named, begin)
    local at, stop = named.offset - begin, named.offset - begin + named.size
    if at < payload.at or stop > payload.stop then
        complain(tree, BAD_SIZES, ("The slot of writer %d isn't in the payload"):format(named.writer))
        return
    end
    local slot, item = payload.tvb(at, named.size), nil
    if is_zero(slot) then
        item = tree:add(SHOWN.message, slot)
        item:append_text((", writer %d, none in its slot"):format(named.writer))
    else
        item = show_message(cursor_of(payload.tvb, at, stop), tree, message, named.writer)
    end
    item:add(SHOWN.writer_id, named.writer):set_generated()
end

-- The slots of the message's group, or, where none is named for it, those of any group. Of several at one place the first counts.
local function slots_of(message)
    local own, any = {places = {}}, {places = {}}
    for _, named in ipairs(named_writers()) do
        local slots = named.group == "*" and any or own
        if named.offset and is_of(named, message) and not slots.places[named.offset] then
            slots.places[named.offset] = true
            table.insert(slots, named)
        end
    end
    return #own > 0 and own or any
end

-- A payload without a header: its layout is known from the configuration alone.
local function show_layout(payload, tree, message, begin)
    local slots = slots_of(message)
    for _, named in ipairs(slots) do show_slot(payload, tree, message, named, begin) end
    if #slots == 0 and payload:left() > 0 then show_message(payload, tree, message, nil, true) end
end

local function show_payload(payload, tree, message, begin)
    if message.is_chunk then
        local item = tree:add(SHOWN.chunk, payload.tvb(payload.at, payload:left()))
        reads(payload, item, read_chunk, message, tree, (message.writers or {})[1])
    elseif message.type ~= 0 then
        local range = payload.tvb(payload.at, payload:left())
        table.insert(message.told, NETWORK_TYPES[message.type])
        complain(tree:add(SHOWN.undecoded_bytes, range), UNREAD, "A " .. NETWORK_TYPES[message.type] .. " isn't decoded")
    elseif message.writers then show_messages(payload, tree, message)
    else show_layout(payload, tree, message, begin) end
end

local function read_network_message(cursor, tree, message)
    show_header(cursor, tree, message)
    message.source = ("%s, %s, group %s"):format(tostring(message.pinfo.src), tostring(message.publisher), tostring(message.group))
    local payload, begin = show_security(cursor, tree, message)
    if message.number then follow(message, message.number_item, OF_GROUP, "", message.number) end
    if payload then reads(payload, tree, show_payload, message, begin) end
end

function uadp.dissector(tvb, pinfo, tree)
    pinfo.cols.protocol = "UADP"
    local item = tree:add(uadp, tvb())
    local message = {pinfo = pinfo, told = {}, finds = 0, is_cut = tvb:len() < tvb:reported_len()}
    for _, named in ipairs({named_keys(), named_writers()}) do
        if named.wrong then complain(item, BAD_PREFERENCE, named.wrong) end
    end
    if message.is_cut then complain(item, SHORT, "The capture has cut the datagram") end
    reads(cursor_of(tvb, 0, tvb:len()), item, read_network_message, message)
    local told = (message.publisher or "no publisher") .. told_number(" group %d", message.group)
    if #message.told > 0 then told = told .. ": " .. table.concat(message.told, ", ") end
    pinfo.cols.info = told
    item:append_text(", " .. told)
    return tvb:len()
end

uadp.fields, uadp.experts = SHOWN, all_experts

-- OPC 10000-14 7.3: UDP, and Ethernet by its own EtherType.
local UADP_ETHERTYPE = 0xb62c
local udp_ports, ports = DissectorTable.get("udp.port"), uadp.prefs.ports
udp_ports:add(ports, uadp)
DissectorTable.get("ethertype"):add(UADP_ETHERTYPE, uadp)

function uadp.prefs_changed()
    if uadp.prefs.ports == ports then return end
    udp_ports:remove(ports, uadp)
    ports = uadp.prefs.ports
    udp_ports:add(ports, uadp)
end
