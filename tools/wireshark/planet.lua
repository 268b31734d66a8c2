-- A dissector of planet's frames for Wireshark and tshark: docs/use/wireshark.md says how to install it and which filters it has.
--
-- The formats are those of docs/language/bytes-and-frames.md. A frame is read as `planet show` reads it: fields from the left, the
-- first that is wrong decides. What was read up to there is shown, and then the fault.

local planet = Proto("planet", "PLAN frame")

local FRAME_MAX, CODE_MAX, WEIGHT_MAX, BOUND_MAX, COST_MAX = 16512, 16000, 16384, 65535, 65535
local NAME_MAX, ROWS_MAX, NODES_MAX, DEPTH_MAX, TYPE_MAX, VALUE_MAX, NESTING_MAX = 32, 32, 4096, 64, 8, 8, 4

local kinds = { "packet", "advert", "ask", "packet with a handler" }

-- the fields, whose display filters are `planet.` and the name
local fields = {
  version = ProtoField.uint8("planet.version", "Version"),
  kind = ProtoField.uint8("planet.kind", "Kind", base.DEC, kinds),
  boot = ProtoField.uint64("planet.boot", "Boot moment of the sender"),
  link = ProtoField.uint64("planet.link", "Number on the link"),
  family = ProtoField.string("planet.family", "Family"),
  source = ProtoField.uint32("planet.source", "Source host"),
  serial = ProtoField.uint64("planet.serial", "Serial number"),
  destination = ProtoField.uint32("planet.destination", "Destination host"),
  bound = ProtoField.uint32("planet.bound", "Bound"),
  route = ProtoField.string("planet.route", "Routing function"),
  handler = ProtoField.string("planet.handler", "Handler"),
  declaration = ProtoField.string("planet.declaration", "Declaration"),
  service = ProtoField.string("planet.service", "Service"),
  exception = ProtoField.string("planet.exception", "Exception"),
  ["function"] = ProtoField.string("planet.function", "Function"),
  entry = ProtoField.string("planet.entry", "Entry"),
  argument = ProtoField.string("planet.argument", "Argument"),
  host = ProtoField.uint32("planet.host", "Advertising host"),
  row = ProtoField.string("planet.row", "Row"),
  row_host = ProtoField.uint32("planet.row.host", "Host"),
  row_cost = ProtoField.uint32("planet.row.cost", "Cost"),
  fault = ProtoField.string("planet.fault", "No frame"),
  fault_name = ProtoField.string("planet.fault.name", "Fault"),
  fault_at = ProtoField.uint32("planet.fault.at", "Byte"),
}
for _, field in pairs(fields) do
  table.insert(planet.fields, field)
end

local no_frame = ProtoExpert.new("planet.no_frame", "No frame", expert.group.PROTOCOL, expert.severity.WARN)
planet.experts = { no_frame }

local function set_of(words)
  local set = {}
  for word in words:gmatch("%S+") do
    set[word] = true
  end
  return set
end

local reserved = set_of([[and blob bool char chunk dev else end eval exception false foldl foldr fun handle host if in int
  let list mod not OnNeighbor OnRemote or raise string svc then true try unit val]])
local exceptions = set_of([[Overflow DivByZero Empty BadIndex TooLarge NoBound NoService NoRoute NotNeighbor TableFull NotFound]])

-- Faults. A reader refuses by `refuse`, which only `judged` catches.

local function refuse(name, at, says_place)
  error({ name = name, at = at, text = says_place and name .. " " .. at or name })
end

-- Answers nothing where a reading ends well, and else its fault; any other error is one of this file.
local function judged(reading, ...)
  local is_read, fault = pcall(reading, ...)
  if is_read then return nil end
  if type(fault) ~= "table" or not fault.name then
    error(fault, 0)
  end
  return fault
end

-- Fields. A reader `r` has all bytes, and `at`, how many of them were read.

-- Takes so many bytes and answers where they begin.
local function take(r, count)
  local at = r.at
  if at + count > #r.bytes then refuse("Truncated", at, true) end
  r.at = at + count
  return at
end

local function number(r, count)
  local at, value = take(r, count), 0
  for i = at + 1, at + count do
    value = value * 256 + r.bytes:byte(i)
  end
  return value, at
end

-- A number of eight bytes: Lua's own numbers may be too short for it.
local function long(r, kind)
  local at = take(r, 8)
  return kind.decode(r.bytes:sub(at + 1, at + 8), false), at
end

local function name(r)
  local length, at = number(r, 1)
  if length < 1 or length > NAME_MAX then refuse("BadName", at, true) end
  local first = take(r, length)
  local word = r.bytes:sub(first + 1, first + length)
  if not word:find("^[A-Za-z][A-Za-z0-9_]*$") or reserved[word] then refuse("BadName", at, true) end
  return word, at
end

local function count(r, least, most, what)
  local value, at = number(r, 1)
  if value < least then refuse("BadTag", at, true) end
  if value > most then refuse("OverLimit " .. what, at, true) end
  return value
end

-- UTF-8: the first bytes of characters, how many follow, and between which bytes the second one lies.
local leads = {
  { 0x00, 0x7f, 0 }, { 0xc2, 0xdf, 1, 0x80, 0xbf }, { 0xe0, 0xe0, 2, 0xa0, 0xbf }, { 0xe1, 0xec, 2, 0x80, 0xbf },
  { 0xed, 0xed, 2, 0x80, 0x9f }, { 0xee, 0xef, 2, 0x80, 0xbf }, { 0xf0, 0xf0, 3, 0x90, 0xbf },
  { 0xf1, 0xf3, 3, 0x80, 0xbf }, { 0xf4, 0xf4, 3, 0x80, 0x8f },
}

local function lead_of(byte)
  for _, lead in ipairs(leads) do
    if byte >= lead[1] and byte <= lead[2] then return lead end
  end
end

local function is_utf8(text)
  local at = 1
  while at <= #text do
    local lead = lead_of(text:byte(at))
    if not lead or at + lead[3] > #text then return false end
    for i = 1, lead[3] do
      local byte, low, high = text:byte(at + i), 0x80, 0xbf
      if i == 1 then
        low, high = lead[4], lead[5]
      end
      if byte < low or byte > high then return false end
    end
    at = at + 1 + lead[3]
  end
  return true
end

local function utf8_of(scalar)
  if scalar < 0x80 then return string.char(scalar) end
  local tail, rest, first = "", scalar, 0x40
  while rest >= first do
    tail = string.char(0x80 + rest % 64) .. tail
    rest, first = math.floor(rest / 64), math.floor(first / 2)
  end
  -- `first` is twice what may still stand in the first byte, so the ones before it are 256 less twice that
  return string.char(256 - 2 * first + rest) .. tail
end

-- Types, each with its text as it is printed, by which types are compared, and its depth.

local base_types = {}
for tag, word in ipairs({ "unit", "bool", "int", "char", "string", "blob", "host", "dev", "chunk" }) do
  base_types[tag - 1] = { text = word, depth = 1 }
  base_types[word] = base_types[tag - 1]
end

local function list_type(item)
  return { text = item.text .. " list", item = item, depth = item.depth + 1 }
end

-- Answers the type of a tuple, or nothing where a part has none.
local function tuple_type(parts, size)
  local texts, depth = {}, 0
  for i = 1, size do
    if not parts[i] then return nil end
    texts[i] = parts[i].text
    depth = math.max(depth, parts[i].depth)
  end
  return { text = "(" .. table.concat(texts, " * ") .. ")", parts = parts, depth = depth + 1 }
end

local function is_type(found, wanted)
  return found and wanted and found.text == wanted.text
end

-- Reads a type that stands at this depth.
local function type_at(r, depth)
  local tag, at = number(r, 1)
  if tag > 0x0a then refuse("BadTag", at, true) end
  if depth > TYPE_MAX then refuse("OverLimit type", at, true) end
  if tag < 0x09 then return base_types[tag] end
  if tag == 0x09 then return list_type(type_at(r, depth + 1)) end
  local parts = {}
  for i = 1, count(r, 2, 8, "parts") do
    parts[i] = type_at(r, depth + 1)
  end
  return tuple_type(parts, #parts)
end

-- Literals, which values and expressions share: what stands behind the tag, as it is printed.

local escapes = { ["\n"] = "\\n", ["\t"] = "\\t", ["\r"] = "\\r", ["\\"] = "\\\\" }

-- Text between quotes of one kind.
local function quoted(text, quote)
  local inner = text:gsub("[\0-\31\127\\" .. quote .. "]", function(it)
    return escapes[it] or (it == quote and "\\" .. it) or string.format("\\x%02x", it:byte())
  end)
  return quote .. inner .. quote
end

local function text_literal(r)
  local length = number(r, 2)
  local at = take(r, length)
  local text = r.bytes:sub(at + 1, at + length)
  if not is_utf8(text) then refuse("BadUtf8", at, true) end
  return quoted(text, '"')
end

local function blob_literal(r)
  local length = number(r, 2)
  local at = take(r, length)
  local digits = r.bytes:sub(at + 1, at + length):gsub(".", function(it)
    return string.format("%02x", it:byte())
  end)
  return '#"' .. digits .. '"'
end

local function char_literal(r)
  local scalar, at = number(r, 4)
  if scalar > 0x10ffff or (scalar >= 0xd800 and scalar <= 0xdfff) then refuse("BadUtf8", at, true) end
  return quoted(utf8_of(scalar), "'")
end

local function bool_literal(r)
  local value, at = number(r, 1)
  if value > 1 then refuse("BadTag", at, true) end
  return value == 1 and "true" or "false"
end

local literals = {
  [0] = function() return "()" end,
  bool_literal,
  function(r) return (tostring((long(r, Int64))):gsub("-", "~")) end,
  char_literal,
  text_literal,
  blob_literal,
  function(r) return "@" .. string.format("%d", (number(r, 4))) end,
  function(r) return "%" .. string.format("%d", (number(r, 4))) end,
}

-- Expressions: for each tag its name, the letters of what stands behind it, and its printed form, in which %1 is the first
-- part. n is a name, t a type, l a type of items, e an expression, A arguments, P parts of a tuple, C clauses, o an operator,
-- p the number of a part.
local forms = {
  [0x28] = { "empty", "l", "[:%1]" },
  [0x29] = { "variable", "n", "%1" },
  [0x2a] = { "tuple", "P", "(%1)" },
  [0x2b] = { "call", "nA", "%1(%2)" },
  [0x2c] = { "if", "eee", "(if %1 then %2 else %3)" },
  [0x2d] = { "let", "ntee", "let val %1 : %2 = %3 in %4 end" },
  [0x2e] = { "then", "ee", "(%1; %2)" },
  [0x2f] = { "and", "ee", "(%1 and %2)" },
  [0x30] = { "or", "ee", "(%1 or %2)" },
  [0x31] = { "not", "e", "(not %1)" },
  [0x32] = { "operator", "oee", "(%2 %1 %3)" },
  [0x33] = { "part", "pe", "(#%1 %2)" },
  [0x34] = { "raise", "nt", "raise[:%2] %1" },
  [0x35] = { "try", "eC", "try %1 handle %2 end" },
  [0x36] = { "foldl", "nee", "foldl(%1, %2, %3)" },
  [0x37] = { "foldr", "nee", "foldr(%1, %2, %3)" },
  [0x38] = { "chunk", "nA", "|%1|(%2)" },
  [0x39] = { "eval", "e", "eval(%1)" },
  [0x3a] = { "OnRemote", "eeen", "OnRemote(%1, %2, %3, %4)" },
  [0x3b] = { "OnNeighbor", "eeee", "OnNeighbor(%1, %2, %3, %4)" },
}

local operators = { [0] = "+", "-", "*", "/", "mod", "^", "=", "<>", "<", "<=", ">", ">=", "::" }

local expression

local function expressions(r, size, depth)
  local list, texts = { is_list = true }, {}
  for i = 1, size do
    list[i] = expression(r, depth)
    texts[i] = list[i].text
  end
  list.text = table.concat(texts, ", ")
  return list
end

-- The clauses of a `try`, each the name of an exception, or none for `_`, and an expression.
local function clauses(r, depth)
  local size, list, texts = count(r, 1, 8, "clauses"), { is_list = true, names = {} }, {}
  for i = 1, size do
    local tag, at = number(r, 1)
    if tag > 1 or (tag == 0 and i < size) then refuse("BadTag", at, true) end
    local word = tag == 1 and name(r) or "_"
    list[i], list.names[i] = expression(r, depth), word
    texts[i] = word .. " => " .. list[i].text
  end
  list.text = table.concat(texts, " | ")
  return list
end

local function operator(r)
  local value, at = number(r, 1)
  if not operators[value] then refuse("BadTag", at, true) end
  return { text = operators[value] }
end

-- Readers of the letters of a form.
local readers = {
  n = function(r) return { text = (name(r)) } end,
  t = function(r) return type_at(r, 1) end,
  l = function(r) return type_at(r, 2) end,
  e = function(r, depth) return expression(r, depth) end,
  A = function(r, depth) return expressions(r, count(r, 0, 8, "arguments"), depth) end,
  P = function(r, depth) return expressions(r, count(r, 2, 8, "parts"), depth) end,
  C = clauses,
  o = operator,
  p = function(r) return { text = tostring(count(r, 1, 8, "parts")) } end,
}

-- Reads an expression below so many others.
function expression(r, depth)
  local tag, at = number(r, 1)
  local form, literal = forms[tag], tag >= 0x20 and literals[tag - 0x20]
  if not form and not literal then refuse("BadTag", at, true) end
  r.nodes = r.nodes + 1
  if r.nodes > NODES_MAX then refuse("OverLimit nodes", at, true) end
  if depth >= DEPTH_MAX then refuse("OverLimit depth", at, true) end
  if literal then return { form = "literal", type = base_types[tag - 0x20], text = literal(r) } end
  local node, texts = { form = form[1] }, {}
  for letter in form[2]:gmatch(".") do
    local part = readers[letter](r, depth + 1)
    table.insert(node, part)
    texts[tostring(#node)] = part.text
  end
  node.text = form[3]:gsub("%%(%d)", texts)
  return node
end

-- Typing. Lists and raises carry their types in bytes, so the type of an expression follows from those of its parts. A rule
-- answers it, or nothing where there is none.

local unit, bool, int, chunk_type = base_types.unit, base_types.bool, base_types.int, base_types.chunk

-- Whether so many types are those wanted, one by one.
local function fits(types, size, wanted)
  for i = 1, math.max(size, #wanted) do
    if not is_type(types[i], wanted[i]) then return false end
  end
  return true
end

-- Primitives: the types of their parameters and of their answer; those that take a list of any type have a rule.
local primitives = {
  intToString = { parameters = { int }, result = base_types.string },
  hostToString = { parameters = { base_types.host }, result = base_types.string },
  stringToBlob = { parameters = { base_types.string }, result = base_types.blob },
  blobLength = { parameters = { base_types.blob }, result = int },
  blobPart = { parameters = { base_types.blob, int, int }, result = base_types.blob },
  hd = { of_list = function(list) return list.item end },
  tl = { of_list = function(list) return list end },
  length = { of_list = function() return int end },
}

local function on_ints(a, b)
  return is_type(a, int) and is_type(b, int) and int
end

local function on_equals(a, b)
  return is_type(a, b) and bool
end

local function on_ordered(a, b)
  return is_type(a, b) and (a == int or a == base_types.char or a == base_types.string) and bool
end

local operator_rules = {
  ["+"] = on_ints, ["-"] = on_ints, ["*"] = on_ints, ["/"] = on_ints, mod = on_ints,
  ["="] = on_equals, ["<>"] = on_equals,
  ["<"] = on_ordered, ["<="] = on_ordered, [">"] = on_ordered, [">="] = on_ordered,
  ["^"] = function(a, b) return is_type(a, b) and (a == base_types.string or a == base_types.blob) and a end,
  ["::"] = function(a, b) return a and is_type(b, list_type(a)) and b end,
}

-- A rule for a form whose parts have these types.
local function of_parts(wanted, result)
  return function(_, types) return fits(types, #wanted, wanted) and result end
end

local function call_rule(node, types, code)
  local called, given, size = node[1].text, types[2], #node[2]
  local signature = primitives[called] or code.earlier[called] or code.services[called]
  if signature and signature.of_list then
    return size == 1 and given[1] and given[1].item and signature.of_list(given[1])
  end
  return signature and fits(given, size, signature.parameters) and signature.result
end

local function try_rule(node, types, code)
  for i, word in ipairs(node[2].names) do
    local is_known = word == "_" or exceptions[word] or code.exceptions[word]
    if not is_known or not is_type(types[2][i], types[1]) then return nil end
  end
  return types[1]
end

-- A fold's rule; the accumulated value is the first or the second argument of its function.
local function fold_rule(is_first)
  return function(node, types, code)
    local folded, start, item = code.earlier[node[1].text], types[2], types[3] and types[3].item
    local given = is_first and { start, item } or { item, start }
    return folded and fits(given, 2, folded.parameters) and is_type(folded.result, start) and start
  end
end

-- The rules, by form: the node, the types of its parts, the code in which it stands, and the variables about it.
local rules = {
  literal = function(node) return node.type end,
  empty = function(node) return list_type(node[1]) end,
  variable = function(node, _, _, scope)
    while scope and scope.name ~= node[1].text do
      scope = scope.outer
    end
    return scope and scope.type
  end,
  tuple = function(node, types) return tuple_type(types[1], #node[1]) end,
  call = call_rule,
  ["if"] = function(_, types) return is_type(types[1], bool) and is_type(types[3], types[2]) and types[2] end,
  let = function(node, types) return is_type(types[3], node[2]) and types[4] end,
  ["then"] = function(_, types) return is_type(types[1], unit) and types[2] end,
  ["and"] = of_parts({ bool, bool }, bool),
  ["or"] = of_parts({ bool, bool }, bool),
  ["not"] = of_parts({ bool }, bool),
  operator = function(node, types) return operator_rules[node[1].text](types[2], types[3]) end,
  part = function(node, types) return types[2] and types[2].parts and types[2].parts[tonumber(node[1].text)] end,
  raise = function(node, _, code)
    return (exceptions[node[1].text] or code.exceptions[node[1].text]) and node[2]
  end,
  try = try_rule,
  foldl = fold_rule(true),
  foldr = fold_rule(false),
  chunk = function(node, types, code)
    local entry = code.functions[node[1].text]
    return entry and fits(types[2], #node[2], entry.parameters) and chunk_type
  end,
  eval = of_parts({ chunk_type }, unit),
  OnRemote = of_parts({ chunk_type, base_types.host, int }, unit),
  OnNeighbor = of_parts({ chunk_type, base_types.host, int, base_types.dev }, unit),
}

-- Answers the type of an expression, or nothing.
local function type_of(node, code, scope)
  local types = {}
  for i, part in ipairs(node) do
    if part.form then
      local is_body = node.form == "let" and i == 4
      types[i] = type_of(part, code, is_body and { name = node[1].text, type = node[2], outer = scope } or scope)
    elseif part.is_list then
      types[i] = {}
      for k, item in ipairs(part) do
        types[i][k] = type_of(item, code, scope)
      end
    end
  end
  local found = rules[node.form](node, types, code, scope)
  return found and found.depth <= TYPE_MAX and found or nil
end

-- Answers a table of declarations by their names, or nothing where a name stands twice or is taken.
local function named(declarations, taken)
  local by_name = {}
  for _, it in ipairs(declarations) do
    if taken[it.name] or by_name[it.name] then return nil end
    by_name[it.name] = it
  end
  return by_name
end

-- Whether the body of a function has its result's type, the functions before it being known.
local function is_function_typed(it, code)
  local scope, seen = nil, {}
  for i, word in ipairs(it.names) do
    if seen[word] then return false end
    seen[word], scope = true, { name = word, type = it.parameters[i], outer = scope }
  end
  return is_type(type_of(it.body, code, scope), it.result)
end

-- Whether a program is typed. It also gets its declarations by name.
local function is_typed(program)
  local services, raised = named(program.services, primitives), named(program.exceptions, exceptions)
  local taken = setmetatable(services or {}, { __index = primitives })
  local functions = named(program.functions, taken)
  if not (services and raised and functions) then return false end
  local code = { services = services, exceptions = raised, functions = functions, earlier = {} }
  program.code = code
  for _, it in ipairs(program.functions) do
    if not is_function_typed(it, code) then return false end
    code.earlier[it.name] = it
  end
  return true
end

-- Answers what is wrong with the types of a chunk, or nothing.
local function ill_of(chunk)
  if not is_typed(chunk.program) then return "Code" end
  local entry = chunk.program.code.functions[chunk.entry]
  if not entry then return "Entry" end
  if #chunk.arguments ~= #entry.parameters then return "Count" end
  for i, argument in ipairs(chunk.arguments) do
    if not is_type(argument.type, entry.parameters[i]) then return "Argument " .. i - 1 end
  end
end

-- What is shown. A note is a field with its bytes and its value; one of level 1 stands below the last one of level 0.

local function note(r, field, first, value, level)
  if r.inside == 0 then
    table.insert(r.notes, { field = field, first = first, last = r.at, value = value, level = level or 0 })
  end
end

-- Notes a declaration, as it is printed, and its name.
local function declared(r, what, first, word, text)
  note(r, "declaration", first, text)
  note(r, what, first, word, 1)
end

-- Programs, chunks and values.

local function types_of(parts)
  local texts = {}
  for i, it in ipairs(parts) do
    texts[i] = it.text
  end
  return table.concat(texts, ", ")
end

local function service(r)
  local first, word = r.at, (name(r))
  local parameters = {}
  for i = 1, count(r, 0, 8, "parameters") do
    parameters[i] = type_at(r, 1)
  end
  local result = type_at(r, 1)
  declared(r, "service", first, word, "svc " .. word .. " : (" .. types_of(parameters) .. ") -> " .. result.text)
  return { name = word, parameters = parameters, result = result }
end

local function exception(r)
  local first, word = r.at, (name(r))
  declared(r, "exception", first, word, "exception " .. word)
  return { name = word }
end

local function fun(r)
  local first, word = r.at, (name(r))
  local names, parameters, texts = {}, {}, {}
  for i = 1, count(r, 0, 8, "parameters") do
    names[i] = name(r)
    parameters[i] = type_at(r, 1)
    texts[i] = names[i] .. " : " .. parameters[i].text
  end
  local result = type_at(r, 1)
  local body = expression(r, 0)
  local head = "fun " .. word .. "(" .. table.concat(texts, ", ") .. ") : " .. result.text
  declared(r, "function", first, word, head .. " = " .. body.text)
  return { name = word, names = names, parameters = parameters, result = result, body = body }
end

local function declarations(r, reader, least, what)
  local list = {}
  for i = 1, count(r, least, 64, what) do
    list[i] = reader(r)
  end
  return list
end

local function program(r)
  local first = r.at
  r.nodes = 0
  local it = { services = declarations(r, service, 0, "services") }
  it.exceptions = declarations(r, exception, 0, "exceptions")
  it.functions = declarations(r, fun, 1, "functions")
  if r.at - first > CODE_MAX then refuse("OverLimit code", first, true) end
  return it
end

local value

-- Reads a chunk, which is inside so many others; one with a tag weighs a byte more.
local function chunk(r)
  local first = r.at
  local it = { program = program(r), arguments = {} }
  local entry_at = r.at
  it.entry = name(r)
  note(r, "entry", entry_at, it.entry)
  for i = 1, count(r, 0, 8, "arguments") do
    local at = r.at
    it.arguments[i] = value(r, 0)
    note(r, "argument", at, it.arguments[i].text)
  end
  it.weight = r.at - first + 1
  if r.inside == 0 and it.weight > WEIGHT_MAX then refuse("OverLimit weight", first, true) end
  return it
end

local function chunk_value(r, at)
  if r.inside + 1 >= NESTING_MAX then refuse("OverLimit nesting", at, true) end
  r.inside = r.inside + 1
  local it = chunk(r)
  r.inside = r.inside - 1
  return { text = "<chunk " .. it.entry .. " " .. it.weight .. ">", type = not ill_of(it) and chunk_type or nil }
end

local function list_value(r, _, depth)
  local item, texts = type_at(r, 2), {}
  local is_whole = true
  for i = 1, (number(r, 2)) do
    local it = value(r, depth + 1)
    texts[i], is_whole = it.text, is_whole and is_type(it.type, item)
  end
  local text = #texts == 0 and "[:" .. item.text .. "]" or "[" .. table.concat(texts, ", ") .. "]"
  return { text = text, type = is_whole and list_type(item) or nil }
end

local function tuple_value(r, _, depth)
  local types, texts = {}, {}
  for i = 1, count(r, 2, 8, "parts") do
    local it = value(r, depth + 1)
    types[i], texts[i] = it.type, it.text
  end
  return { text = "(" .. table.concat(texts, ", ") .. ")", type = tuple_type(types, #texts) }
end

local composites = { [0x18] = chunk_value, [0x19] = list_value, [0x1a] = tuple_value }

-- Reads a value inside so many lists and tuples.
function value(r, depth)
  local tag, at = number(r, 1)
  local literal, composite = tag >= 0x10 and literals[tag - 0x10], composites[tag]
  if literal then return { text = literal(r), type = base_types[tag - 0x10] } end
  if not composite then refuse("BadTag", at, true) end
  if tag > 0x18 and depth >= VALUE_MAX then refuse("OverLimit depth", at, true) end
  return composite(r, at, depth)
end

-- Frames. `line` is what `planet show` writes first.

local function bound(r)
  local it, at = number(r, 4)
  if it > BOUND_MAX then refuse("BoundTooLarge", at) end
  note(r, "bound", at, it)
  return it
end

local function word_field(r, field)
  local word, at = name(r)
  note(r, field, at, word)
  return word
end

local function packet(r, has_handler)
  local source, first = number(r, 4)
  note(r, "source", first, source)
  local serial, at = long(r, UInt64)
  note(r, "serial", at, serial)
  local family = source .. "." .. tostring(serial)
  note(r, "family", first, family)
  local destination
  destination, at = number(r, 4)
  note(r, "destination", at, destination)
  r.line = "packet " .. family .. " dest @" .. destination .. " bound " .. bound(r) .. " route " .. word_field(r, "route")
  r.handler = has_handler and word_field(r, "handler")
  return chunk(r)
end

local function row_of(r, before)
  local host, at = number(r, 4)
  if before and host <= before then refuse("BadOrder", at, true) end
  local cost, cost_at = number(r, 4)
  if cost > COST_MAX then refuse("OverLimit cost", cost_at, true) end
  note(r, "row", at, "@" .. host .. " " .. cost)
  note(r, "row_host", at, host, 1)
  note(r, "row_cost", cost_at, cost, 1)
  return host
end

local function advert(r)
  local host, at = number(r, 4)
  note(r, "host", at, host)
  r.line = "advert @" .. host
  local rows, before
  rows, at = number(r, 2)
  if rows > ROWS_MAX then refuse("OverLimit hosts", at, true) end
  for _ = 1, rows do
    before = row_of(r, before)
  end
end

local function ask(r)
  r.line = "ask bound " .. bound(r)
  return chunk(r)
end

-- What stands behind each kind of each version; those of version 2 bear a stamp.
local behind = {
  { packet, advert, ask },
  { packet, advert, nil, function(r) return packet(r, true) end },
}

local function stamp(r)
  local boot, at = long(r, UInt64)
  note(r, "boot", at, boot)
  local link, link_at = long(r, UInt64)
  note(r, "link", link_at, link)
  return " boot " .. tostring(boot) .. " link " .. tostring(link)
end

-- Judges what a frame's fields leave open: bytes behind it, and types.
local function judge_whole(r, carried)
  if r.at < #r.bytes then refuse("Trailing", r.at, true) end
  local ill = carried and ill_of(carried)
  if ill then refuse("IllTyped " .. ill) end
  local handler = r.handler and carried.program.code.functions[r.handler]
  if r.handler and not (handler and fits(handler.parameters, #handler.parameters, { base_types.string })
      and is_type(handler.result, unit)) then
    refuse("IllTyped Handler")
  end
end

local function frame(r)
  if #r.bytes > FRAME_MAX then refuse("TooLong", 0) end
  if r.bytes:sub(take(r, 4) + 1, 4) ~= "PLAN" then refuse("BadMagic", 0) end
  local version, at = number(r, 1)
  if not behind[version] then refuse("BadVersion", at) end
  note(r, "version", at, version)
  local kind, kind_at = number(r, 1)
  if not behind[version][kind] then refuse("BadKind", kind_at) end
  note(r, "kind", kind_at, kind)
  local stamped = version == 2 and stamp(r) or ""
  local carried = behind[version][kind](r)
  r.line = r.line .. stamped .. (r.handler and " handler " .. r.handler or "")
  judge_whole(r, carried)
end

-- The tree.

local function show_notes(tree, tvb, notes)
  local item = tree
  for _, it in ipairs(notes) do
    local under = it.level == 0 and tree or item
    local added = under:add(fields[it.field], tvb(it.first, it.last - it.first), it.value)
    item = it.level == 0 and added or item
  end
end

local function show_fault(tree, tvb, fault)
  local range = fault.at and fault.at < tvb:len() and tvb(fault.at) or tvb()
  local item = tree:add(fields.fault, range, fault.text)
  item:add(fields.fault_name, range, (fault.text:gsub(" %d+$", "")))
  if fault.at then
    item:add(fields.fault_at, range, fault.at)
  end
  item:add_proto_expert_info(no_frame, "No frame: " .. fault.text)
end

function planet.dissector(tvb, pinfo, root)
  local r = { bytes = tvb:raw(), at = 0, inside = 0, notes = {} }
  local fault = judged(frame, r)
  local is_cut = fault and fault.name == "Truncated" and tvb:captured_len() < tvb:reported_len()
  local line = is_cut and "Cut by the capture" or fault and "No frame: " .. fault.text or r.line
  pinfo.cols.protocol = "PLAN"
  pinfo.cols.info = line
  local tree = root:add(planet, tvb(), "PLAN frame, " .. line)
  show_notes(tree, tvb, r.notes)
  if fault and not is_cut then
    show_fault(tree, tvb, fault)
  end
  return tvb:len()
end

-- Frames are known by their first four letters. Where a node's port is said to speak PLAN (Decode As), all its datagrams are.
planet:register_heuristic("udp", function(tvb, pinfo, root)
  if tvb:len() < 4 or tvb:raw(0, 4) ~= "PLAN" then return false end
  planet.dissector(tvb, pinfo, root)
  return true
end)
DissectorTable.get("udp.port"):add_for_decode_as(planet)
