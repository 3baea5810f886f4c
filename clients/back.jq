# Writes arrays back with jq, alone or among other members, as --arg style tells: plain (numbers as doubles), small (a number from 2^53 on
# becomes null), escaped (the same as a string, the name `data` told by escapes), odd (what else may stand where a number is due). What a
# text looks like is told by jq's options; --seq puts a byte 1E before each.
def small:
  if type == "array" then map(small)
  elif type == "number" and (. >= 9007199254740992 or . <= -9007199254740992) then null
  else . end;
def deep: reduce range(14) as $i ([]; [.]);
def before:
  { note: "a \"quoted\" word, a \\ and a / \b\f\n\r\t\u0001\u001f\u007f", "größe": "naïve €, 日本, \ud83d\ude00, \u2028",
    nested: { data: [9, 9], a: { b: [[], {}, [{ data: null }]] } }, Data: [1], "d\\u0061ta": 2 };
def after:
  { "": [1.5, -0.125, 1e-7, 2.5e30], true: true, false: false, null: null, "data ": "{\"data\":[7]}", deep: deep, "d\u0430ta": 3 };
if $style == "plain" then .
elif $style == "small" then before + { data: (.data | small) } + after
elif $style == "escaped" then
  "\u001e{ \"Data\":" + (before | tojson) + " ,\"d\\u0061t\\u0061\"\t:" + (.data | small | tojson)
  + ",\r\n\"z\":" + (after | del(.deep) | tojson) + "}"
else (5.0, -0, 1e18, 100000000000000000, nan, infinite, "7") | { data: [1, ., 3] }
end
