-- A picture alone in its paragraph goes into the page, as a data URI: an <img> keeps its styles and ids to itself.
-- The alt text is the source's text; a title, ![text](file "title"), becomes a caption.

local function escaped(text)
  return (text:gsub("&", "&amp;"):gsub("<", "&lt;"):gsub(">", "&gt;"):gsub('"', "&quot;"))
end

local function data_uri(file)
  local from = assert(io.open(file, "rb"), "picture " .. file .. " is missing")
  local svg = from:read("a")
  from:close()
  assert(svg:find("<svg", 1, true), "picture " .. file .. " is no SVG")
  svg = svg:gsub(">%s+<", "><"):gsub("[%%#\"<>&'\n\r\t{}|\\^`%z\1-\31\127-\255]", function(byte)
    return string.format("%%%02X", byte:byte())
  end)
  return "data:image/svg+xml," .. svg
end

function Para(paragraph)
  local image = paragraph.content[1]
  if #paragraph.content ~= 1 or image.t ~= "Image" then return nil end
  local alt = pandoc.utils.stringify(image.caption)
  assert(alt ~= "", "picture " .. image.src .. " has no text")
  local caption = image.title ~= "" and "<figcaption>" .. escaped(image.title) .. "</figcaption>" or ""
  return pandoc.RawBlock("html", '<figure tabindex="0"><img alt="' .. escaped(alt) .. '" src="' .. data_uri(image.src) .. '">' ..
    caption .. "</figure>")
end
