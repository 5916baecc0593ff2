-- Makes references links where what they name exists: clauses (7.6), "chapter 7", "chapters 1 to 5", "appendix D", C.5, "table 1",
-- a refusal's number where a clause gives it ("12 if", "1 unless"), and a word in emphasis in a clause that the glossary has.
-- Left alone: code, headings, a number with a unit or after "version". A link of the source that leaves the page becomes its text.
local text_of = pandoc.utils.stringify
local ids = {}

local units = {} -- those of page.d/units, which the test of the page reads too
for line in io.lines("page.d/units") do
  for unit in line:gmatch("%S+") do units[unit] = true end
end

local function is_blank(inline) return inline and (inline.t == "Space" or inline.t == "SoftBreak") end
local function word(inline) return inline and inline.t == "Str" and inline.text or "" end

-- whether the number at `at` is a measure or a version and no clause
local function is_measure(inlines, at)
  local bare = word(inlines[at]):match("%d$")
  local after = bare and is_blank(inlines[at + 1]) and word(inlines[at + 2]):gsub("[.,;:)]+$", "") or ""
  local before = is_blank(inlines[at - 1]) and word(inlines[at - 2]):lower() or ""
  return units[after] or before:match("^%(?versions?$") or before == "pandoc"
end

-- a string with the first N.M or C.M in it that is an id made a link; the rest is looked at in turn
local function with_numbers(text)
  local from = 1
  while true do
    local first, last, number = text:find("%f[%w](%w+%.%d+)%f[%D]", from)
    if not first then return { pandoc.Str(text) } end
    local id = number:match("^%d+%.%d+$") and "c" .. number or number:match("^%u%.%d+$")
    local apart = not text:sub(1, first - 1):match("[%d.,]$") and not text:sub(last + 1):match("^[%w_]") and
      not text:sub(last + 1):match("^%.%d") and not text:sub(last + 1):match("^,%d")
    if id and ids[id] and apart and not text:sub(last + 1):match("^%%") then
      local out = pandoc.List()
      if first > 1 then out:insert(pandoc.Str(text:sub(1, first - 1))) end
      out:insert(pandoc.Link(number, "#" .. id))
      if last < #text then out:extend(with_numbers(text:sub(last + 1))) end
      return out
    end
    from = last + 1
  end
end

local kinds = {
  { one = "^[Cc]hapter$", more = "^[Cc]hapters$", number = "^%d+$", prefix = "c" },
  { one = "^[Aa]ppendix$", more = "^[Aa]ppendices$", number = "^%u$", prefix = "" },
  { one = "^[Tt]able$", more = "^[Tt]ables$", number = "^%d+$", prefix = "table-" },
}

local joints = { to = true, ["and"] = true, ["or"] = true }

-- the id that the string at `at` gives as a number of that kind, the number, and what stands behind it
local function target(inlines, at, kind)
  local number, rest = word(inlines[at]):match("^(%w+)(.*)$")
  if not number or not number:match(kind.number) or rest:match("^[.,]%w") then return nil end
  local id = kind.prefix .. number
  return ids[id] and id, number, rest
end

-- "chapter 7", "chapters 1 to 5" from `at` on: the inlines and the place behind them, or nothing
local function named(inlines, at)
  local open, name = word(inlines[at]):match("^(%(*)(%a+)$")
  for _, kind in ipairs(name and is_blank(inlines[at + 1]) and kinds or {}) do
    local id, number, rest = target(inlines, at + 2, kind)
    if id and (name:match(kind.one) or name:match(kind.more)) then
      local out = pandoc.List({ pandoc.Str(open), pandoc.Link({ pandoc.Str(name), pandoc.Space(), pandoc.Str(number) }, "#" .. id),
        pandoc.Str(rest) })
      at = at + 3
      while name:match(kind.more) and (rest == "" or rest == ",") and is_blank(inlines[at]) do
        local joint = joints[word(inlines[at + 1])] and is_blank(inlines[at + 2]) and 2 or 0
        id, number, rest = target(inlines, at + joint + 1, kind)
        if not id then break end
        for k = at, at + joint do out:insert(inlines[k]) end
        out:extend({ pandoc.Link(number, "#" .. id), pandoc.Str(rest) })
        at = at + joint + 2
      end
      return out, at
    end
  end
end

-- "12 if", "1 unless", "18, with" where a clause or a part of it begins
local function refusal(inlines, at)
  local number, comma = word(inlines[at]):match("^(%d+)(,?)$")
  local next_word = is_blank(inlines[at + 1]) and word(inlines[at + 2]) or ""
  local gives = comma == "" and (next_word == "if" or next_word == "unless") or comma == "," and next_word == "with"
  if not number or not ids["r" .. number] or not gives then return nil end
  local before = inlines[at - 2]
  local begins = before and is_blank(inlines[at - 1]) and (before.t == "Link" or word(before):match("[:;,]$") or word(before) == "and")
  return begins and { pandoc.Link(number, "#r" .. number), pandoc.Str(comma) } or nil
end

local function glossary_id(inline)
  local text = text_of(inline):lower():gsub("%A+$", "")
  for _, form in ipairs({ text, (text:gsub("s$", "")) }) do
    local id = "w-" .. form:gsub("[^%w]+", "-")
    if ids[id] then return id end
  end
end

local linked
local function linked_inline(inlines, at, in_clause)
  local inline = inlines[at]
  if inline.t == "Str" then
    return in_clause and refusal(inlines, at) or is_measure(inlines, at) and { inline } or with_numbers(inline.text)
  elseif inline.t == "Emph" and in_clause and glossary_id(inline) then
    return { pandoc.Link({ inline }, "#" .. glossary_id(inline), "", pandoc.Attr("", { "term" })) }
  elseif inline.t == "Link" and inline.target:sub(1, 1) ~= "#" then
    return linked(inline.content, in_clause)
  elseif inline.t == "Emph" or inline.t == "Strong" or inline.t == "Quoted" then
    inline.content = linked(inline.content, in_clause)
  end
  return { inline }
end

linked = function(inlines, in_clause)
  local out, at = pandoc.List(), 1
  while at <= #inlines do
    local reference, behind = named(inlines, at)
    out:extend(reference or linked_inline(inlines, at, in_clause))
    at = behind or at + 1
  end
  return out
end

local function linking(in_clause)
  local function with(paragraph)
    paragraph.content = linked(paragraph.content, in_clause)
    return paragraph
  end
  return { Para = with, Plain = with }
end

-- the glossary's column of clauses may name an appendix, "A", or a page without a number, "the bus"
local function last_cells(tbl)
  local bodies = tbl.bodies
  for _, body in ipairs(bodies) do
    for _, row in ipairs(body.body) do
      local last = row.cells[#row.cells]
      local text = text_of(last.contents)
      local id = text:match("^%u$") or text:match("^%a[%a ]+$") and text:lower():gsub(" ", "-")
      if row.identifier:match("^w%-") and id and ids[id] then
        last.contents = { pandoc.Plain({ pandoc.Link(text, "#" .. id) }) }
      end
    end
  end
  tbl.bodies = bodies
  return tbl
end

local function collect(doc)
  local function keep(element) ids[element.identifier] = true end
  local function keep_rows(tbl)
    for _, body in ipairs(tbl.bodies) do
      for _, row in ipairs(body.body) do keep(row) end
    end
  end
  pandoc.walk_block(pandoc.Div(doc.blocks), { Header = keep, Div = keep, Span = keep, Table = keep_rows })
end

function Pandoc(doc)
  collect(doc)
  local blocks = pandoc.List()
  for _, block in ipairs(doc.blocks) do
    if block.t ~= "Header" then
      local in_clause = block.t == "Div" and block.classes:includes("clause")
      block = pandoc.walk_block(pandoc.Div({ block }), linking(in_clause)).content[1]
      block = pandoc.walk_block(pandoc.Div({ block }), { Table = last_cells }).content[1]
    end
    blocks:insert(block)
  end
  return pandoc.Pandoc(blocks, doc.meta)
end
