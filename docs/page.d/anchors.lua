-- Gives chapters, sections, clauses, refusals and glossary words their ids:
--   ## 7 The calls   c7         **7.6** ..   c7.6        a row of table 1    r12 (r5-2 where a number comes again)
--   ### Open         c7-open    ## A, ### C.5   A, C.5   a word of the glossary   w-cap
-- A clause is its paragraph and what follows it, up to the next clause or heading: a div, its number a link to itself.
-- The first heading becomes the title; a paragraph that begins "Contents:" is left out.
local text_of = pandoc.utils.stringify

local function slug(text)
  return (text:lower():gsub("[^%w]+", "-"):gsub("^%-", ""):gsub("%-$", ""))
end

-- ids of headings, and their numbers as spans; `chapter` is the id of the chapter that a section stands in
local chapter = ""
local function anchored(header)
  local text = text_of(header)
  local number = text:match("^(%d+) ") or text:match("^(%u) ") or text:match("^(%u%.%d+) ")
  local table_number = text:match("^Table (%d+)")
  if number then
    header.identifier = (number:match("^%d") and "c" or "") .. number
    header.content[1] = pandoc.Span(header.content[1], pandoc.Attr("", { "number" }))
  elseif table_number then
    header.identifier = "table-" .. table_number
  else
    header.identifier = (header.level > 2 and chapter ~= "" and chapter .. "-" or "") .. slug(text:match("^[^:]*"))
  end
  if header.level == 2 then chapter = header.identifier end
  return header
end

local function clause_number(block)
  if block.t ~= "Para" or block.content[1].t ~= "Strong" then return nil end
  return text_of(block.content[1]):match("^%d+%.%d+$")
end

-- the paragraph of a clause, its number a link
local function opened(paragraph, number)
  local link = pandoc.Link(number, "#c" .. number, "", pandoc.Attr("", { "number" }))
  paragraph.content[1] = link
  return pandoc.Div({ paragraph }, pandoc.Attr("c" .. number, { "clause" }))
end

-- "due, due time": the row has the first word's id, each later word one of its own
local function further_words(cell)
  local first, rest = text_of(cell.contents):match("^([^,]*)(,.*)$")
  if not first then return end
  local words = pandoc.List({ pandoc.Str(first) })
  for word in rest:gmatch(", *([^,]+)") do
    words:extend({ pandoc.Str(", "), pandoc.Span(pandoc.Str(word), pandoc.Attr("w-" .. slug(word))) })
  end
  cell.contents = { pandoc.Plain(words) }
end

-- gives each row the id that `name` makes of its first cell
local function rows_with(tbl, name, also)
  local seen, bodies = {}, tbl.bodies
  for _, body in ipairs(bodies) do
    for _, row in ipairs(body.body) do
      local id = name(text_of(row.cells[1].contents))
      if id then
        seen[id] = (seen[id] or 0) + 1
        row.attr = pandoc.Attr(seen[id] > 1 and id .. "-" .. seen[id] or id)
        if also then also(row.cells[1]) end
      end
    end
  end
  tbl.bodies = bodies
  return tbl
end

-- rows of the table of refusals, by its heading, and of the glossary, by its first column
local function with_rows(tbl, heading)
  local first = tbl.head.rows[1] and text_of(tbl.head.rows[1].cells[1].contents) or ""
  if heading:match("^Table 1%f[%D]") then
    return rows_with(tbl, function(text) return text:match("^%d+$") and "r" .. text end)
  elseif first == "word" then
    return rows_with(tbl, function(text) return "w-" .. slug(text:match("^[^,]*")) end, further_words)
  end
  return tbl
end

function Pandoc(doc)
  local blocks, heading, clause = pandoc.List(), "", nil
  for _, block in ipairs(doc.blocks) do
    local number = clause_number(block)
    if block.t == "Header" then
      clause = nil
      heading = text_of(block)
      if block.level == 1 and not doc.meta.title then
        doc.meta.title = pandoc.MetaInlines(block.content)
      else
        blocks:insert(anchored(block))
      end
    elseif block.t == "Para" and text_of(block):match("^Contents:") then
      clause = nil
    elseif number then
      clause = opened(block, number)
      blocks:insert(clause)
    else
      if block.t == "Table" then block = with_rows(block, heading) end
      if clause then clause.content:insert(block) else blocks:insert(block) end
    end
  end
  return pandoc.Pandoc(blocks, doc.meta)
end
