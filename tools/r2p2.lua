-- A dissector for tshark and Wireshark, tried with version 4.0: the headers of R2P2 packets, the messages between the members of a group,
-- and the commands and replies of the key-value store. docs/PROTOCOL.md has the formats, docs/OPERATING.md examples.
--
-- usage: tshark -X lua_script:tools/r2p2.lua [-i INTERFACE | -r FILE] ..
--
-- UDP datagrams of the ports of the preference r2p2.ports are taken whatever they are, and so are those to which -d udp.port==N,r2p2
-- gives a port; of others those that begin like a header, and after one whose header is right all of its conversation.
--
-- A datagram that the program would refuse is shown as far as it can be read, with an expert info, and the name of its fault in the field
-- r2p2.fault (of the header and of parts) or hovercraft.fault (of a message): the names of docs/PROTOCOL.md. Parts are put together per
-- receiver, and the body is decoded with the part that made it whole.

local r2p2 = Proto("r2p2", "R2P2 packet")
local hovercraft = Proto("hovercraft", "HovercRaft message")

-- Names and ranges

local MAGIC = 0x52
local TYPES = { [0] = "REQ0", "REPLY", "REQRDY", "REQN", "FEEDBACK", "REJECT", "ORDERING", "RECOVER" }
local REQ0, REPLY, REQRDY, REQN, FEEDBACK, REJECT, ORDERING, RECOVER = 0, 1, 2, 3, 4, 5, 6, 7
local POLICIES = { [0] = "FIXED", "JBSQ", "REPLICATED", "REPLICATED_READ" }
local JBSQ = 1
local WAYS = { [0] = "fixed", "jbsq", "write", "read" } -- how a request is made, in the words of the info column

-- Of each type: its policies with a header of 8 bytes and with one of 16, the greatest count of a first part and the greatest number of a
-- later one; 0 where the type has no such part.
local PACKETS = {
    [REQ0] = { [8] = "0123", [16] = "123", count = 60, number = 0 },
    [REPLY] = { [8] = "0123", [16] = "", count = 64, number = 63 },
    [REQRDY] = { [8] = "01", [16] = "", count = 1, number = 0 },
    [REQN] = { [8] = "0123", [16] = "23", count = 0, number = 59 },
    [FEEDBACK] = { [8] = "", [16] = "123", count = 1, number = 0 },
    [REJECT] = { [8] = "123", [16] = "", count = 1, number = 0 },
    [ORDERING] = { [8] = "2", [16] = "", count = 1, number = 0 },
    [RECOVER] = { [8] = "", [16] = "2", count = 64, number = 63 },
}
local CLASSES = { [REQ0] = "request", [REQN] = "request", [REPLY] = "reply", [RECOVER] = "recovery" } -- of the types that have parts
local PIECE = 1024 -- bytes of a part that isn't the last
local MOST_BODY = 61440

local COMMANDS = { [0x47] = "GET", [0x50] = "PUT", [0x44] = "DEL", [0x43] = "CAS", [0x53] = "SCAN", [0x4E] = "COUNT" }
local STATUSES = {
    [0] = "done",
    "no such key",
    "it is another value",
    "no command",
    "a read may not change anything",
    "the store would be too large",
}

local GREATEST = UInt64.new(0, 0x40000000) -- 2^62, the greatest term and index
local ZERO, ONE = UInt64.new(0), UInt64.new(1)
local MOST_ENTRIES = UInt64.new(64)
local KINDS = { [0] = "Blank", "Write", "Read" }
local BLANK, NOBODY = 0, 255
local REPLIERS = { [NOBODY] = "nobody" }
for member = 0, 6 do
    REPLIERS[member] = "member " .. member
end

-- The messages in the order of their tags, with their fields, and the type of the packet in which they travel where it isn't ORDERING.
local MESSAGES = {
    { name = "VoteReq", "term", "member", "last_index", "last_term" },
    { name = "Vote", "term", "member", "granted" },
    { name = "Order", "term", "leader", "prev_index", "prev_term", "term_start", "commit", "via", "count" },
    { name = "Ack", "term", "member", "index", "applied" },
    { name = "Nack", "term", "member", "hint" },
    { name = "AggCommit", "term", "index" },
    { name = "RecoverAsk", packet = RECOVER, "member" },
    { name = "RecoverBody", packet = RECOVER, "kind" },
}

local function constant(value)
    return function()
        return value
    end
end

local function own_term(read)
    return read.term
end

local function entries_that_fit(read)
    local left = GREATEST - read.prev_index
    return left < MOST_ENTRIES and left or MOST_ENTRIES
end

-- A field of messages: its label, its bytes, its least value, its greatest by the fields before it, and the names of its values.
local function form_of(label, bytes, least, most, values)
    return { label = label, bytes = bytes, least = UInt64.new(least), most = most, values = values }
end

local any_index, any_member, yes_or_no = constant(GREATEST), constant(UInt64.new(6)), constant(UInt64.new(1))
local FIELDS = {
    term = form_of("Term", 8, 1, any_index),
    term_start = form_of("Start of the term", 8, 1, any_index),
    last_term = form_of("Last term", 8, 0, own_term),
    prev_term = form_of("Previous term", 8, 0, own_term),
    last_index = form_of("Last index", 8, 0, any_index),
    prev_index = form_of("Previous index", 8, 0, any_index),
    index = form_of("Index", 8, 0, any_index),
    applied = form_of("Applied", 8, 0, any_index),
    hint = form_of("Hint", 8, 0, any_index),
    commit = form_of("Commit index", 8, 0, any_index),
    member = form_of("Member", 1, 0, any_member),
    leader = form_of("Leader", 1, 0, any_member),
    granted = form_of("Granted", 1, 0, yes_or_no, { [0] = "no", "yes" }),
    via = form_of("Via", 1, 0, yes_or_no, { [0] = "direct", "through the aggregator" }),
    count = form_of("Count of entries", 1, 0, entries_that_fit),
    kind = form_of("Kind", 1, 1, constant(UInt64.new(2)), KINDS),
}

-- Fields, by the names that filters have

local fields = {}

local function field(name, make, ...)
    fields[name] = make(name, ...)
end

field("r2p2.magic", ProtoField.uint8, "Magic", base.HEX)
field("r2p2.size", ProtoField.uint8, "Size of the header", base.DEC)
field("r2p2.type", ProtoField.uint8, "Type", base.DEC, TYPES, 0xF0)
field("r2p2.policy", ProtoField.uint8, "Policy", base.DEC, POLICIES, 0x0F)
field("r2p2.flags", ProtoField.uint8, "Flags", base.HEX)
field("r2p2.flags.first", ProtoField.bool, "First part", 8, nil, 0x80)
field("r2p2.flags.last", ProtoField.bool, "Last part", 8, nil, 0x40)
field("r2p2.flags.others", ProtoField.uint8, "Other bits", base.HEX, nil, 0x3F)
field("r2p2.id", ProtoField.uint16, "Request id", base.DEC)
field("r2p2.count", ProtoField.uint16, "Count of parts", base.DEC)
field("r2p2.number", ProtoField.uint16, "Number of the part", base.DEC)
field("r2p2.client", ProtoField.ipv4, "Client")
field("r2p2.client.port", ProtoField.uint16, "Client's port", base.DEC)
field("r2p2.zero", ProtoField.uint16, "Zero", base.HEX)
field("r2p2.request", ProtoField.string, "Request")
field("r2p2.part.number", ProtoField.uint16, "Part", base.DEC)
field("r2p2.part.count", ProtoField.uint16, "Parts in all", base.DEC)
field("r2p2.payload", ProtoField.bytes, "Payload")
field("r2p2.body", ProtoField.bytes, "Body from all parts")
field("r2p2.fault", ProtoField.string, "Fault")
field("r2p2.info", ProtoField.string, "Info") -- hidden: the info column
field("r2p2.command", ProtoField.string, "Command")
field("r2p2.command.code", ProtoField.uint8, "Code", base.HEX, COMMANDS)
field("r2p2.command.key", ProtoField.bytes, "Key")
field("r2p2.command.old", ProtoField.bytes, "Old value")
field("r2p2.command.value", ProtoField.bytes, "Value")
field("r2p2.command.limit", ProtoField.uint16, "Limit", base.DEC)
field("r2p2.command.length", ProtoField.uint16, "Length", base.DEC)
field("r2p2.reply", ProtoField.string, "Reply")
field("r2p2.reply.index", ProtoField.uint64, "Index", base.DEC)
field("r2p2.reply.status", ProtoField.uint8, "Status", base.DEC, STATUSES)
field("r2p2.reply.value", ProtoField.bytes, "Value")

local TAGS = {}
for tag, message in ipairs(MESSAGES) do
    TAGS[tag] = message.name
    message.field = "hovercraft." .. message.name:lower() -- as hovercraft.order, whose fields are hovercraft.order.term and others
    field(message.field, ProtoField.none, message.name) -- hidden
    for _, name in ipairs(message) do
        local make = FIELDS[name].bytes == 8 and ProtoField.uint64 or ProtoField.uint8
        field(message.field .. "." .. name, make, FIELDS[name].label, base.DEC, FIELDS[name].values)
    end
end
field("hovercraft.tag", ProtoField.uint8, "Tag", base.DEC, TAGS)
field("hovercraft.term", ProtoField.uint64, "Term of the message", base.DEC) -- hidden, of any message
field("hovercraft.member", ProtoField.uint8, "Member that speaks", base.DEC) -- hidden, also an Order's leader
field("hovercraft.entry", ProtoField.none, "Entry")
field("hovercraft.entry.index", ProtoField.uint64, "Index", base.DEC)
field("hovercraft.entry.term", ProtoField.uint64, "Term", base.DEC)
field("hovercraft.entry.kind", ProtoField.uint8, "Kind", base.DEC, KINDS)
field("hovercraft.entry.client", ProtoField.ipv4, "Client")
field("hovercraft.entry.port", ProtoField.uint16, "Client's port", base.DEC)
field("hovercraft.entry.id", ProtoField.uint16, "Request id", base.DEC)
field("hovercraft.entry.replier", ProtoField.uint8, "Replier", base.DEC, REPLIERS)
field("hovercraft.body", ProtoField.bytes, "Body")
field("hovercraft.rest", ProtoField.bytes, "Bytes after the last field")
field("hovercraft.fault", ProtoField.string, "Fault")

local function fields_of(prefix)
    local found = {}
    for name, each in pairs(fields) do
        if name:sub(1, #prefix) == prefix then
            found[#found + 1] = each
        end
    end
    return found
end

r2p2.fields = fields_of("r2p2.")
hovercraft.fields = fields_of("hovercraft.")

local function expert_of(name, text, group, severity)
    return ProtoExpert.new(name, text, expert.group[group], expert.severity[severity])
end

local experts = {
    header = expert_of("r2p2.expert.header", "The header is refused", "MALFORMED", "ERROR"),
    part = expert_of("r2p2.expert.part", "The part is refused", "MALFORMED", "ERROR"),
    command = expert_of("r2p2.expert.command", "The body is no command", "MALFORMED", "WARN"),
    reply = expert_of("r2p2.expert.reply", "The reply is short", "MALFORMED", "WARN"),
    rejected = expert_of("r2p2.expert.rejected", "The request is rejected", "RESPONSE_CODE", "NOTE"),
    cut = expert_of("r2p2.expert.cut", "The datagram is not whole here", "UNDECODED", "NOTE"),
    message = expert_of("hovercraft.expert.message", "The message is refused", "MALFORMED", "ERROR"),
    packet = expert_of("hovercraft.expert.packet", "The message is in the wrong type of packet", "PROTOCOL", "WARN"),
}
r2p2.experts = { experts.header, experts.part, experts.command, experts.reply, experts.rejected, experts.cut }
hovercraft.experts = { experts.message, experts.packet }

-- Words

local SHOWN = 24 -- bytes of a value that are shown

-- Bytes as text in quotes where all are printable, else in hexadecimal digits; of long ones the beginning and the length.
local function value_words(value)
    local part = value:sub(1, SHOWN)
    local is_text = not part:find('[^\32-\126]') and not part:find('["\\]')
    local words = is_text and '"' .. part .. '"' or part:gsub(".", function(each) return ("%02X"):format(each:byte()) end)
    return #value <= SHOWN and words or ("%s.. (%d bytes)"):format(words, #value)
end

local function bytes_of(range_of_bytes)
    return range_of_bytes:len() > 0 and range_of_bytes:raw() or ""
end

local function request_words(id, client)
    return ("%d of %s"):format(id, client)
end

local function client_words(tvb, at)
    return ("%s:%d"):format(tostring(tvb(at, 4):ipv4()), tvb(at + 4, 2):uint())
end

local CUT = "Cut" -- in the place of a fault: the bytes end early only in the capture

local function refusal_words(what, fault, reason)
    return fault == CUT and ("%s cut (%s)"):format(what, reason) or ("%s refused: %s (%s)"):format(what, fault, reason)
end

-- Shows that something is refused: by the field of this name, with the fault's, and an expert info with the reason.
local function refuse(tree, name, which, fault, reason)
    if fault == CUT then
        tree:add_proto_expert_info(experts.cut, "Cut in the capture: " .. reason)
        return
    end
    tree:add(fields[name], fault):set_generated()
    tree:add_proto_expert_info(which, fault .. ": " .. reason)
end

-- Reading

-- Bytes that are read from left to right. After a fault nothing is read any more.
local Reader = {}
Reader.__index = Reader

function Reader.new(tvb, at, is_cut)
    return setmetatable({ tvb = tvb, at = at, is_cut = is_cut }, Reader)
end

function Reader:left()
    return self.tvb:len() - self.at
end

function Reader:fail(fault, reason)
    self.fault = self.fault or fault
    self.reason = self.reason or reason
end

-- The next bytes, which are the field of this name; nothing where there are too few of them.
function Reader:take(size, name)
    if not self.fault and self:left() < size then
        self:fail(self.is_cut and CUT or "Short", "it ends in the field " .. name)
    end
    if self.fault then
        return nil
    end
    self.at = self.at + size
    return self.tvb(self.at - size, size)
end

function Reader:rest()
    return self:take(self:left(), "rest")
end

-- The next number, which must be in a range; it is shown in a tree also where it isn't.
function Reader:number(tree, full_name, name, size, least, most)
    local bytes = self:take(size, name)
    if not bytes then
        return nil
    end
    local value = bytes:uint64()
    tree:add(fields[full_name], bytes)
    if value < least or value > most then
        self:fail("Range", ("%s is %s and not %s to %s"):format(name, tostring(value), tostring(least), tostring(most)))
        return nil
    end
    return value
end

-- The store's commands and replies

local VALUE_LABELS = { key = "Key", old = "Old value", value = "Value" }

-- Shows bytes in digits and in words; no bytes, for which there are no digits, in words alone.
local function add_value(tree, full_name, label, bytes)
    local item = tree:add(fields[full_name], bytes)
    if bytes:len() == 0 then
        item:set_text(label .. ": \"\"")
    else
        item:append_text(" " .. value_words(bytes:raw()))
    end
end

-- The words of the next bytes, which have their length before them. What was found, with the names of the fields, goes into a list.
local function read_counted(reader, found, name)
    local length = reader:take(2, "length")
    local bytes = length and reader:take(length:uint(), name)
    if not bytes then
        return nil
    end
    found[#found + 1] = { "length", length }
    found[#found + 1] = { name, bytes }
    return value_words(bytes_of(bytes))
end

local function read_value(reader, found)
    local value = reader:rest()
    found[#found + 1] = { "value", value }
    return value_words(bytes_of(value))
end

-- Of each command: reads what comes after its first byte, and gives its words; nothing where a field isn't there.
local READERS = {}

function READERS.GET(reader, found)
    local key = read_counted(reader, found, "key")
    return key and "GET " .. key
end

function READERS.DEL(reader, found)
    local key = read_counted(reader, found, "key")
    return key and "DEL " .. key
end

function READERS.PUT(reader, found)
    local key = read_counted(reader, found, "key")
    return key and ("PUT %s to %s"):format(key, read_value(reader, found))
end

function READERS.CAS(reader, found)
    local key = read_counted(reader, found, "key")
    local old = read_counted(reader, found, "old")
    return old and ("CAS %s from %s to %s"):format(key, old, read_value(reader, found))
end

function READERS.SCAN(reader, found)
    local key = read_counted(reader, found, "key")
    local limit = reader:take(2, "limit")
    if not limit then
        return nil
    end
    found[#found + 1] = { "limit", limit }
    return ("SCAN from %s, %d at most"):format(key, limit:uint())
end

function READERS.COUNT()
    return "COUNT"
end

-- The words of the command that a reader's bytes are, and what was found in it; no words at a fault.
local function read_command(reader)
    local found = {}
    local code = reader:take(1, "code")
    if not code then
        return nil, found
    end
    found[1] = { "code", code }
    local name = COMMANDS[code:uint()]
    if not name then
        reader:fail("Tag", "no command has this code")
        return nil, found
    end
    local words = READERS[name](reader, found)
    if words and reader:left() > 0 then
        reader:fail("Extra", "longer than its fields by " .. reader:left())
    end
    return not reader.fault and words or nil, found
end

-- Shows the command that bytes are from a place on, and gives its words.
local function add_command(tvb, at, tree)
    local reader = Reader.new(tvb, at)
    local body = tvb(at, reader:left())
    local words, found = read_command(reader)
    local inner = tree:add(fields["r2p2.command"], body, words or "no command")
    for _, each in ipairs(found) do
        local name, bytes = each[1], each[2]
        if VALUE_LABELS[name] then
            add_value(inner, "r2p2.command." .. name, VALUE_LABELS[name], bytes)
        else
            inner:add(fields["r2p2.command." .. name], bytes)
        end
    end
    if words then
        return words
    end
    inner:add_proto_expert_info(experts.command, "No command: " .. reader.reason)
    return "no command, " .. value_words(bytes_of(body))
end

-- Shows the reply that bytes are from a place on, and gives its words.
local function add_reply(tvb, at, tree)
    local reader = Reader.new(tvb, at)
    local body = tvb(at, reader:left())
    if reader:left() < 9 then
        local words = "short, " .. value_words(bytes_of(body))
        tree:add(fields["r2p2.reply"], body, words):add_proto_expert_info(experts.reply, "A reply has 9 bytes at least")
        return words
    end
    local index, status, value = reader:take(8, "index"), reader:take(1, "status"), reader:rest()
    local words = ("index %s, %s"):format(tostring(index:uint64()), STATUSES[status:uint()] or "status " .. status:uint())
    if value:len() > 0 then
        words = words .. ", value " .. value_words(value:raw())
    end
    local inner = tree:add(fields["r2p2.reply"], body, words)
    inner:add(fields["r2p2.reply.index"], index)
    inner:add(fields["r2p2.reply.status"], status)
    add_value(inner, "r2p2.reply.value", "Value", value)
    return words
end

-- Messages between members

-- Adds the fields that messages have in common, so that one filter finds them in all.
local function add_hidden(tree, name, bytes)
    local shared = name == "leader" and "member" or name
    if shared == "term" or shared == "member" then
        tree:add(fields["hovercraft." .. shared], bytes):set_hidden()
    end
end

-- The fields of a message as numbers, by their names, as far as they are right.
local function read_fields(reader, tree, message)
    local read = {}
    for _, name in ipairs(message) do
        local form, at = FIELDS[name], reader.at
        read[name] = reader:number(tree, message.field .. "." .. name, form.label:lower(), form.bytes, form.least, form.most(read))
        if not read[name] then
            return read
        end
        add_hidden(tree, name, reader.tvb(at, form.bytes))
    end
    return read
end

-- The request that an entry names: 8 bytes, zeros in a blank one.
local function read_entry_request(reader, tree, kind, words)
    local bytes = reader:take(8, words .. "request id")
    if not bytes then
        return nil
    end
    local at = reader.at - 8
    local request = request_words(reader.tvb(at + 6, 2):uint(), client_words(reader.tvb, at))
    tree:add(fields["hovercraft.entry.client"], reader.tvb(at, 4))
    tree:add(fields["hovercraft.entry.port"], reader.tvb(at + 4, 2))
    tree:add(fields["hovercraft.entry.id"], reader.tvb(at + 6, 2))
    if kind ~= BLANK then
        tree:add(fields["r2p2.request"], bytes, request):set_hidden()
    elseif bytes:uint64() ~= ZERO then
        reader:fail("Range", words .. "blank, and yet it names a request")
    end
    return request
end

-- Shows one entry of an Order, and gives its term; nothing at a fault.
local function add_entry(reader, tree, index, least, most)
    local words = ("entry %s: "):format(tostring(index))
    local bytes = reader.tvb(reader.at, math.min(18, reader:left()))
    local inner = tree:add(fields["hovercraft.entry"], bytes)
    inner:set_text(words:sub(1, 1):upper() .. words:sub(2, -3))
    inner:add(fields["hovercraft.entry.index"], index):set_generated()
    local term = reader:number(inner, "hovercraft.entry.term", words .. "term", 8, least, most)
    local kind = reader:number(inner, "hovercraft.entry.kind", words .. "kind", 1, ZERO, UInt64.new(2))
    kind = kind and kind:tonumber()
    local request = read_entry_request(reader, inner, kind, words)
    local lowest, highest = UInt64.new(kind == BLANK and NOBODY or 0), UInt64.new(kind == BLANK and NOBODY or 6)
    local replier = reader:number(inner, "hovercraft.entry.replier", words .. "replier", 1, lowest, highest)
    if not replier then
        return nil
    end
    inner:append_text((": %s of term %s"):format(KINDS[kind]:lower(), tostring(term)))
    if kind ~= BLANK then
        inner:append_text((", request %s, replier %s"):format(request, tostring(replier)))
    end
    return term
end

local function add_entries(reader, tree, read)
    local least = read.prev_term < ONE and ONE or read.prev_term
    for place = 1, read.count:tonumber() do
        least = add_entry(reader, tree, read.prev_index + UInt64.new(place), least, read.term)
        if not least then
            return
        end
    end
end

local function entries_words(read)
    local last = tostring(read.prev_index + read.count)
    if read.count == ZERO then
        return "no entries after " .. last
    end
    local first = tostring(read.prev_index + ONE)
    return first == last and "entry " .. last or ("entries %s..%s"):format(first, last)
end

-- What a message says, by the names of its fields.
local SAYINGS = {
    VoteReq = "VoteReq term {term} member {member} last index {last_index} of term {last_term}",
    Vote = "Vote term {term} member {member} {granted}",
    Order = "Order term {term} leader {leader} {entries} commit {commit}{via}",
    Ack = "Ack term {term} member {member} index {index} applied {applied}",
    Nack = "Nack term {term} member {member} hint {hint}",
    AggCommit = "AggCommit term {term} index {index}",
    RecoverAsk = "RecoverAsk member {member} asks for request {request}",
    RecoverBody = "RecoverBody request {request} {kind}: {command}",
}

local function message_words(name, read)
    local said = {}
    for key, value in pairs(read) do
        said[key] = tostring(value)
    end
    if name == "Order" then
        said.entries = entries_words(read)
        said.via = read.via == ONE and " via aggregator" or ""
    elseif name == "Vote" then
        said.granted = read.granted == ONE and "granted" or "not granted"
    elseif name == "RecoverBody" then
        said.kind = KINDS[read.kind:tonumber()]:lower()
    end
    return (SAYINGS[name]:gsub("{(%w+_?%w*)}", said))
end

local function read_body(reader, tree, read)
    if reader:left() > MOST_BODY then
        reader:fail("Range", "the body has " .. reader:left() .. " bytes, more than " .. MOST_BODY)
        return
    end
    tree:add(fields["hovercraft.body"], reader.tvb(reader.at, reader:left()))
    if reader.is_cut then
        reader:fail(CUT, "it ends in the field body")
        return
    end
    read.command = add_command(reader.tvb, reader.at, tree)
    reader:rest()
end

-- The message that a tag names; nothing where there is no tag, or no message of that tag.
local function read_tag(reader, tree)
    local bytes = reader:take(1, "tag")
    if not bytes then
        return nil
    end
    tree:add(fields["hovercraft.tag"], bytes)
    local message = MESSAGES[bytes:uint()]
    if message then
        tree:add(fields[message.field], bytes):set_hidden()
    else
        reader:fail("Tag", "there is no message " .. bytes:uint())
    end
    return message
end

-- Shows what comes after a message's tag, and gives the values of its fields.
local function read_message(reader, tree, message)
    local read = read_fields(reader, tree, message)
    if not reader.fault and message.name == "Order" then
        add_entries(reader, tree, read)
    elseif not reader.fault and message.name == "RecoverBody" then
        read_body(reader, tree, read)
    end
    if not reader.fault and reader:left() > 0 then
        tree:add(fields["hovercraft.rest"], reader.tvb(reader.at, reader:left()))
        reader:fail("Extra", "longer than its fields by " .. reader:left())
    end
    return read
end

-- Shows the message that bytes are from a place on, and gives its words. The header before it names the request that it speaks of.
local function add_message(tvb, at, tree, header, is_cut)
    local reader = Reader.new(tvb, at, is_cut)
    local inner = tree:add(hovercraft, tvb(at, reader:left()))
    local message = read_tag(reader, inner)
    local read = message and read_message(reader, inner, message)
    if reader.fault then
        refuse(inner, "hovercraft.fault", experts.message, reader.fault, reader.reason)
        return refusal_words(message and message.name or "Message", reader.fault, reader.reason)
    end
    read.request = header.request
    local words = message_words(message.name, read)
    inner:append_text(": " .. words)
    if header.type ~= (message.packet or ORDERING) then
        inner:add_proto_expert_info(experts.packet, message.name .. " doesn't travel as " .. TYPES[header.type] .. ", and nobody hears it")
        words = words .. " (in the wrong type of packet)"
    end
    return words
end

-- Headers

-- What is wrong with a header: the name of the first fault, the field where it is, and the reason; nothing where it is right.
local function header_fault(tvb)
    if tvb:len() < 8 then
        return "Short", nil, "a header has 8 bytes at least"
    elseif tvb(0, 1):uint() ~= MAGIC then
        return "Magic", "r2p2.magic", "the first byte isn't 52"
    end
    local size = tvb(1, 1):uint()
    if size ~= 8 and size ~= 16 then
        return "Size", "r2p2.size", "a header has 8 or 16 bytes"
    elseif tvb:len() < size then
        return "Short", nil, "the header has 16 bytes"
    end
    local kind, policy = tvb(2, 1):bitfield(0, 4), tvb(2, 1):bitfield(4, 4)
    local packet = PACKETS[kind]
    if not packet or policy > 3 or not packet[size]:find(tostring(policy), 1, true) then
        return "TypeOrPolicy", "r2p2.type", "the type, the policy and the size don't go together"
    elseif kind == ORDERING and tvb(4, 2):uint() ~= 0 then
        return "TypeOrPolicy", "r2p2.id", "the id of ORDERING is 0"
    end
    local is_first, is_last = tvb(3, 1):bitfield(0, 1) == 1, tvb(3, 1):bitfield(1, 1) == 1
    local most = is_first and packet.count or packet.number
    if tvb(3, 1):bitfield(2, 6) ~= 0 then
        return "Flags", "r2p2.flags", "another bit is set"
    elseif most == 0 then
        return "Flags", "r2p2.flags", ("%s has no %s part"):format(TYPES[kind], is_first and "first" or "later")
    elseif packet.count == 1 and not is_last then
        return "Flags", "r2p2.flags", TYPES[kind] .. " is one part"
    end
    local number = tvb(6, 2):uint()
    local name = is_first and "r2p2.count" or "r2p2.number"
    if number < 1 or number > most then
        return "Count", name, ("it is %d and not 1 to %d"):format(number, most)
    elseif is_first and is_last ~= (number == 1) then
        return "Count", name, "the flag of the last part contradicts it"
    elseif size == 16 and tvb(14, 2):uint() ~= 0 then
        return "Extension", "r2p2.zero", "bytes 14 and 15 aren't zero"
    end
end

-- The places of a header's fields; a field that isn't there whole isn't shown.
local PLACES = {
    { "r2p2.magic", 0, 1 }, { "r2p2.size", 1, 1 }, { "r2p2.type", 2, 1 }, { "r2p2.policy", 2, 1 }, { "r2p2.flags", 3, 1 },
    { "r2p2.id", 4, 2 }, { "r2p2.count", 6, 2 }, { "r2p2.client", 8, 4 }, { "r2p2.client.port", 12, 2 }, { "r2p2.zero", 14, 2 },
}

-- Shows the fields of a header that may be wrong, and gives their items by name, and how many bytes they have.
local function add_header(tvb, tree)
    local items = {}
    local is_r2p2 = tvb:len() > 1 and tvb(0, 1):uint() == MAGIC
    local size = math.min(tvb:len(), not is_r2p2 and 1 or tvb(1, 1):uint() == 16 and 16 or 8)
    local shown = 0
    for _, place in ipairs(PLACES) do
        local name, at, bytes = place[1], place[2], place[3]
        if name == "r2p2.count" and at < tvb:len() and tvb(3, 1):bitfield(0, 1) == 0 then
            name = "r2p2.number"
        end
        if at + bytes <= size then
            items[name] = tree:add(fields[name], tvb(at, bytes))
            shown = at + bytes
        end
    end
    if items["r2p2.flags"] then
        for _, name in ipairs({ "first", "last", "others" }) do
            items["r2p2.flags"]:add(fields["r2p2.flags." .. name], tvb(3, 1))
        end
    end
    return items, shown
end

-- A header that is right. The request's client is named in it, or is the receiver of a reply, a REQRDY and a REJECT, or the sender.
local function read_header(tvb, pinfo)
    local header = {
        size = tvb(1, 1):uint(),
        type = tvb(2, 1):bitfield(0, 4),
        policy = tvb(2, 1):bitfield(4, 4),
        is_first = tvb(3, 1):bitfield(0, 1) == 1,
        is_last = tvb(3, 1):bitfield(1, 1) == 1,
        id = tvb(4, 2):uint(),
    }
    local number = tvb(6, 2):uint()
    header.number = header.is_first and 0 or number
    if header.is_first then
        header.count = number
    elseif header.is_last then
        header.count = number + 1
    end
    local sender, receiver = ("%s:%d"):format(tostring(pinfo.src), pinfo.src_port), ("%s:%d"):format(tostring(pinfo.dst), pinfo.dst_port)
    if header.size == 16 then
        header.client = client_words(tvb, 8)
    else
        header.client = (header.type == REPLY or header.type == REQRDY or header.type == REJECT) and receiver or sender
    end
    header.request = request_words(header.id, header.client)
    header.sender, header.receiver = sender, receiver
    return header
end

-- Parts

local unfinished = {} -- the messages that lack a part, by their keys
local outcomes = {} -- what the part in a frame made, by the frame's number: tables with `fault` and `reason`, `count`, or `body`

function r2p2.init()
    unfinished, outcomes = {}, {}
end

-- Whether a datagram is one of several parts that its receiver puts together: a router only hands first parts on.
local function is_put_together(header)
    return header.count ~= 1 and not (header.type == REQ0 and header.policy == JBSQ and header.size == 8)
end

local function key_of(header)
    local sender = CLASSES[header.type] == "request" and header.client or header.sender
    return table.concat({ CLASSES[header.type], header.policy, header.request, sender, header.receiver }, " ")
end

-- Whether what a part says of the count, exactly or at least, contradicts what the parts before it say.
local function contradicts(message, exact, least)
    local lowest, kept = exact or least, message.exact or message.least
    return message.exact and exact and message.exact ~= exact or message.exact and lowest > message.exact or exact and kept > exact
end

-- The body of a message that has all its parts; nothing where one is missing.
local function whole_body(message)
    if not message.exact then
        return nil
    end
    local body = ByteArray.new()
    for number = 0, message.exact - 1 do
        local piece = message.pieces[number]
        if not piece then
            return nil
        elseif piece ~= "" then
            body:append(piece)
        end
    end
    return body
end

-- Adds a part to those that came before it in the capture, and gives what that makes.
local function add_part(header, piece)
    local key, least = key_of(header), header.count or header.number + 2
    local message = unfinished[key] or { pieces = {}, least = 0 }
    if contradicts(message, header.count, least) then
        local kept, own = message.exact or "at least " .. message.least, header.count or "at least " .. least
        return { fault = "Count", reason = ("the parts before it say that there are %s, and this one %s"):format(kept, own) }
    end
    message.exact = message.exact or header.count
    message.least = math.max(message.least, least)
    message.pieces[header.number] = message.pieces[header.number] or piece
    local body = whole_body(message)
    unfinished[key] = not body and message or nil
    return { count = message.exact, body = body }
end

local function length_fault(header, length)
    if header.is_last and length > PIECE then
        return { fault = "Length", reason = ("a part has at most %d bytes, and this one %d"):format(PIECE, length) }
    elseif not header.is_last and length ~= PIECE then
        return { fault = "Length", reason = ("a part that isn't the last has %d bytes, and this one %d"):format(PIECE, length) }
    end
end

-- What a part makes, in the order of the capture: where frames are looked at again, what it made then.
local function outcome_of(header, payload, pinfo)
    local wrong = length_fault(header, payload:len())
    if wrong or not is_put_together(header) or pinfo.in_error_pkt then
        return wrong or { count = header.count }
    end
    if not pinfo.visited then
        outcomes[pinfo.number] = add_part(header, payload:len() > 0 and payload:bytes() or "")
    end
    return outcomes[pinfo.number] or { count = header.count }
end

local function part_words(header, count)
    if header.count == 1 then
        return ""
    elseif header.is_first or header.is_last then
        return (", %s of %d parts"):format(header.is_first and "first" or "last", header.count)
    end
    return (", part number %d%s"):format(header.number, count and (" of %d parts"):format(count) or "")
end

-- The dissector

-- Shows what a whole body is, and gives its words.
local function add_body(tvb, at, tree, root, header, is_cut)
    if header.type == RECOVER then
        return add_message(tvb, at, root, header, is_cut)
    elseif is_cut then
        return "cut"
    elseif header.type == REPLY then
        return add_reply(tvb, at, tree)
    end
    return add_command(tvb, at, tree)
end

-- Shows a part of a request, a reply or a recovery, and the body that it makes whole, and gives its words.
local function add_parted(tvb, pinfo, tree, root, header, is_cut)
    local payload = tvb(header.size, tvb:len() - header.size)
    local outcome = is_cut and { count = header.count } or outcome_of(header, payload, pinfo)
    if header.count ~= 1 then
        tree:add(fields["r2p2.part.number"], header.number):set_generated()
    end
    if outcome.count and outcome.count ~= 1 then
        tree:add(fields["r2p2.part.count"], outcome.count):set_generated()
    end
    local title = header.type == RECOVER and "Recovery of %s" or header.type == REPLY and "Reply to %s, %s" or "Request %s, %s"
    local words = title:format(header.request, WAYS[header.policy]) .. part_words(header, outcome.count)
    if outcome.fault then
        refuse(tree, "r2p2.fault", experts.part, outcome.fault, outcome.reason)
        return refusal_words(words, outcome.fault, outcome.reason)
    elseif header.count == 1 then
        local said = add_body(tvb, header.size, tree, root, header, is_cut)
        return header.type == RECOVER and said or words .. ": " .. said
    elseif outcome.body then
        local body = outcome.body:tvb("R2P2 body")
        tree:add(fields["r2p2.body"], body()):set_generated()
        return words .. ": " .. add_body(body, 0, tree, root, header, false)
    end
    return words
end

-- Shows what comes after a header that is right, and gives its words.
local function add_content(tvb, pinfo, tree, root, header, is_cut)
    if header.type == ORDERING then
        return add_message(tvb, header.size, root, header, is_cut)
    elseif CLASSES[header.type] then
        return add_parted(tvb, pinfo, tree, root, header, is_cut)
    elseif header.type == REQRDY then
        return "Ready for the other parts of request " .. header.request
    elseif header.type == FEEDBACK then
        return "Feedback on request " .. header.request
    end
    tree:add_proto_expert_info(experts.rejected, "The router's queue was full")
    return ("Request %s is rejected"):format(header.request)
end

-- Shows a datagram, and gives its words and the name of its protocol.
local function add_datagram(tvb, pinfo, tree, root)
    local is_cut = tvb:reported_len() > tvb:len() or pinfo.in_error_pkt
    local items, shown = add_header(tvb, tree)
    if tvb:len() > shown then
        tree:add(fields["r2p2.payload"], tvb(shown))
    end
    local fault, place, reason = header_fault(tvb)
    if fault then
        fault = fault == "Short" and is_cut and CUT or fault
        refuse(items[place] or tree, "r2p2.fault", experts.header, fault, reason)
        return refusal_words("Header", fault, reason), "R2P2"
    end
    local header = read_header(tvb, pinfo)
    tree:append_text((", %s, %s, id %d"):format(TYPES[header.type], POLICIES[header.policy], header.id))
    if header.type ~= ORDERING then
        tree:add(fields["r2p2.request"], header.request):set_generated()
    end
    local is_of_members = header.type == ORDERING or header.type == RECOVER
    return add_content(tvb, pinfo, tree, root, header, is_cut), is_of_members and "HovercRaft" or "R2P2"
end

function r2p2.dissector(tvb, pinfo, root)
    local tree = root:add(r2p2, tvb())
    local words, protocol = add_datagram(tvb, pinfo, tree, root)
    tree:add(fields["r2p2.info"], words):set_hidden()
    pinfo.cols.protocol = protocol
    pinfo.cols.info = words
    return tvb:len()
end

-- Ports

local udp_ports = DissectorTable.get("udp.port")
local taken = "" -- the ports that were given to the dissector

r2p2.prefs.ports = Pref.range("UDP ports", "7001,9000-9009,9100", "Ports whose datagrams are R2P2, right or wrong", 65535)

local function take_ports()
    if taken ~= "" then
        udp_ports:remove(taken, r2p2)
    end
    taken = r2p2.prefs.ports
    if taken ~= "" then
        udp_ports:add(taken, r2p2)
    end
end

function r2p2.prefs_changed()
    take_ports()
end

-- Takes a datagram of other ports where its first two bytes are those of a header.
local function take_by_beginning(tvb, pinfo, root)
    if tvb:len() < 2 or tvb(0, 1):uint() ~= MAGIC or tvb(1, 1):uint() ~= 8 and tvb(1, 1):uint() ~= 16 then
        return false
    end
    if not header_fault(tvb) then
        pinfo.conversation = r2p2
    end
    r2p2.dissector(tvb, pinfo, root)
    return true
end

r2p2:register_heuristic("udp", take_by_beginning)
udp_ports:add_for_decode_as(r2p2)
take_ports()
