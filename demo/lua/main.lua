-- What Lua does on the board: numbers, strings, tables, coroutines, errors, and a line that somebody types.
print(_VERSION, math.maxinteger, 7 // 2, 7 / 2, ("%.3f"):format(math.pi))

local function power_of_two(exponent)
  local digits = {1} -- the lowest first
  for _ = 1, exponent do
    local carry = 0
    for place, digit in ipairs(digits) do
      digits[place] = (2 * digit + carry) % 10
      carry = (2 * digit + carry) // 10
    end
    if carry > 0 then digits[#digits + 1] = carry end
  end
  return table.concat(digits):reverse()
end
print(power_of_two(100))

local words = {}
for word in ("several boards share one virtual clock"):gmatch("%a+") do words[#words + 1] = word end
table.sort(words)
print(table.concat(words, " "))

local fibonacci = coroutine.wrap(function()
  local last, following = 0, 1
  while true do
    coroutine.yield(last)
    last, following = following, last + following
  end
end)
local number
for _ = 0, 90 do number = fibonacci() end
print(number)

print(pcall(function() return nil + 1 end))
print(io.open("main.lua"):seek("end") > 1000, io.open("none"))

io.write("your name? ")
print(("hello, %s; %s bytes"):format(io.read("l"), collectgarbage("count") > 10 and "some" or "few"))
os.exit(true)
