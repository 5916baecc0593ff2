-- The contents, chapters with their sections, as the template's variable `contents`; and a table's frame, which scrolls sideways.
-- Widths are left to the browser; the frame's classes say how many columns there are, whether the last has clauses, and whether
-- the table is short, so that a printed page need not cut it.

local function entry(header) return pandoc.Plain({ pandoc.Link(header.content, "#" .. header.identifier) }) end

local function contents(blocks)
  local chapters = pandoc.List()
  for _, block in ipairs(blocks) do
    if block.t == "Header" and block.level == 2 then
      chapters:insert(pandoc.List({ entry(block) }))
    elseif block.t == "Header" and block.level == 3 and #chapters > 0 then
      local chapter = chapters[#chapters]
      if not chapter[2] then chapter:insert(pandoc.BulletList({})) end
      local sections = chapter[2].content
      sections:insert({ entry(block) })
      chapter[2] = pandoc.BulletList(sections)
    end
  end
  return pandoc.BulletList(chapters)
end

function Table(tbl)
  local specs = pandoc.List()
  for _, spec in ipairs(tbl.colspecs) do specs:insert({ spec[1], nil }) end
  tbl.colspecs = specs
  local heads = tbl.head.rows[1].cells
  local classes = pandoc.List({ "table", "columns-" .. #specs })
  if pandoc.utils.stringify(heads[#heads].contents):match("^clauses?$") then classes:insert("with-clauses") end
  if #tbl.bodies[1].body <= 6 then classes:insert("short") end
  return pandoc.Div({ tbl }, pandoc.Attr("", classes, { tabindex = "0" }))
end

function Pandoc(doc)
  doc.meta.contents = pandoc.MetaBlocks({ contents(doc.blocks) })
  return doc
end
