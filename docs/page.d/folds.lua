-- What states a clause goes behind a fold: [crate Module: `name`, ..; ..] and [not proved], as docs/clauses reads them, are
-- taken out of their paragraph and put into <details> right behind it. Two places differ: before the first chapter a
-- bracket in mid-sentence is an example of one and stays; appendix A is one fold, in which they stay.
local raw = function(html) return pandoc.RawBlock("html", html) end

-- the same inlines with each [ and ] a string of its own
local function split_brackets(inlines)
  local out = pandoc.List()
  for _, inline in ipairs(inlines) do
    if inline.t == "Str" and inline.text:find("[%[%]]") then
      for part, bracket in (inline.text .. "\0"):gmatch("([^%[%]%z]*)([%[%]%z])") do
        if part ~= "" then out:insert(pandoc.Str(part)) end
        if bracket ~= "\0" then out:insert(pandoc.Str(bracket)) end
      end
    else
      out:insert(inline)
    end
  end
  return out
end

local function is_str(inline, text) return inline and inline.t == "Str" and inline.text == text end

-- where the bracket that opens at `first` closes, if it is a citation
local function citation_end(inlines, first)
  local flat = ""
  for at = first + 1, #inlines do
    local inline = inlines[at]
    if is_str(inline, "]") then
      return (flat == "not proved" or flat:match("^[a-z_]+ [%w./_]+: `")) and at or nil
    elseif is_str(inline, "[") then
      return nil
    elseif inline.t == "Code" then
      flat = flat .. "`" .. inline.text .. "`"
    else
      flat = flat .. (inline.t == "Str" and inline.text or " ")
    end
  end
end

-- calls `cited` with each citation of a list (without its brackets, and whether it ends the list) and puts in what it gives
local function each_citation(inlines, cited)
  local parts, out, at = split_brackets(inlines), pandoc.List(), 1
  while at <= #parts do
    local last = is_str(parts[at], "[") and citation_end(parts, at)
    if last then
      local inside = pandoc.List()
      for k = at + 1, last - 1 do inside:insert(parts[k]) end
      out:extend(cited(inside, last == #parts))
      at = last
    else
      out:insert(parts[at])
    end
    at = at + 1
  end
  return out
end

-- after a citation was taken out: no empty parentheses, no blank before a point, none at the end
local function tidy(inlines)
  local out = pandoc.List()
  for _, inline in ipairs(inlines) do
    local before = out[#out]
    local blank = before and (before.t == "Space" or before.t == "SoftBreak")
    if inline.t == "Str" and is_str(before, "(") and inline.text:match("^%)") then
      out:remove()
      inline = pandoc.Str(inline.text:sub(2))
      before = out[#out]
      blank = before and (before.t == "Space" or before.t == "SoftBreak")
    end
    local closes = inline.t == "Str" and inline.text:match("^[.,;:)]")
    local is_blank = inline.t == "Space" or inline.t == "SoftBreak"
    if blank and (closes or is_blank) then out:remove() end
    if not (inline.t == "Str" and inline.text == "") then out:insert(inline) end
  end
  while #out > 0 and (out[#out].t == "Space" or out[#out].t == "SoftBreak") do out:remove() end
  return out
end

-- a line for each module, where the source has "; "
local function lines(groups)
  local out = pandoc.List()
  for _, group in ipairs(groups) do
    if #out > 0 then out:insert(pandoc.LineBreak()) end
    for k, inline in ipairs(group) do
      local before = group[k - 1]
      local ends = is_str(before, ";") and (inline.t == "Space" or inline.t == "SoftBreak")
      if ends then out:insert(pandoc.LineBreak()) elseif not is_str(inline, ";") then out:insert(inline) end
    end
  end
  return out
end

local function folded(paragraph)
  local groups, names = pandoc.List(), false
  paragraph.content = tidy(each_citation(paragraph.content, function(inside)
    groups:insert(inside)
    names = names or inside[#inside].t == "Code"
    return {}
  end))
  if #groups == 0 then return nil end
  local summary = names and "stated by" or "proof"
  local fold = { paragraph, raw('<details class="by"><summary>' .. summary .. "</summary>"), pandoc.Para(lines(groups)), raw("</details>") }
  return pandoc.Div(fold, pandoc.Attr("", { "said" }))
end

-- the bracket as it stands, marked; at the end of a paragraph it is no example
local function shown(paragraph, tag)
  local at_end = false
  paragraph.content = each_citation(paragraph.content, function(inside, ends)
    at_end = at_end or (ends and tag == "samp")
    inside:insert(1, pandoc.RawInline("html", "<" .. tag .. ' class="cite">['))
    inside:insert(pandoc.RawInline("html", "]</" .. tag .. ">"))
    return inside
  end)
  return not at_end and paragraph or nil
end

local function in_front(paragraph) return shown(paragraph:clone(), "samp") or folded(paragraph) end
local function in_theorems(paragraph) return shown(paragraph, "span") end

local function walked(block, with) return pandoc.walk_block(pandoc.Div({ block }), { Para = with, Plain = with }).content end

function Pandoc(doc)
  local blocks, place = pandoc.List(), "front"
  for _, block in ipairs(doc.blocks) do
    if block.t == "Header" and block.level == 2 then
      if place == "theorems" then blocks:insert(raw("</details>")) end
      local id = block.identifier
      place = id == "A" and "theorems" or (place ~= "front" or id:match("^c[1-9]")) and "text" or "front"
      blocks:insert(block)
      if place == "theorems" then blocks:insert(raw('<details class="theorems"><summary>the theorems, for a reader of the proofs</summary>')) end
    else
      local with = place == "front" and block.t ~= "Div" and in_front or place == "theorems" and in_theorems or folded
      blocks:extend(walked(block, with))
    end
  end
  if place == "theorems" then blocks:insert(raw("</details>")) end
  return pandoc.Pandoc(blocks, doc.meta)
end
