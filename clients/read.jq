# Prints what jq finds in one text: the widths, and a line a cell, as jq prints it. It's run once a text: given several, jq would read them
# as one.
def widths:
  if type != "array" then []
  else [length] + (map(widths) | unique | if length < 2 then .[0] else ["ragged"] end)
  end;
def cells: if type == "array" then .[] | cells else tojson end;
if type != "object" or keys != ["data"] then "unread: not an object with the member data alone"
else .data | (widths | map(tostring) | join(" ")), cells
end
