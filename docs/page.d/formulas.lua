-- What stays on one line: a formula, t − ⌈h(t) / B⌉ and L + 1 + G, and in a cell "4 to 6", by blanks that do not break; a date.
local signs = {}
for sign in ("+ − = ≤ ≥ < > × /"):gmatch("%S+") do signs[sign] = true end

local function is_sign(inline) return inline and inline.t == "Str" and signs[inline.text] end

local function unbroken(block)
  local inlines = block.content
  local range = block.t == "Plain" and pandoc.utils.stringify(block):match("^%d+ to %d+$")
  for at, inline in ipairs(inlines) do
    local blank = inline.t == "Space" or inline.t == "SoftBreak"
    if blank and (range or is_sign(inlines[at - 1]) or is_sign(inlines[at + 1])) then inlines[at] = pandoc.Str("\u{a0}") end
  end
  block.content = inlines
  return block
end

local function date(str)
  return str.text:match("%d%d%d%d%-%d%d%-%d%d") and pandoc.Span({ str }, pandoc.Attr("", { "date" })) or nil
end

return { { Para = unbroken, Plain = unbroken }, { Str = date } }
