-- graph.lua [ROUNDS]: the graph of tables that src/graph.rs builds, in Lua, and full collections of it.
-- Prints a line for each round of each heap: its name, a tab, nanoseconds of one collection. Runs under
-- lua5.1 and luajit; both have the array places and nodes apart, as the constructor says.
--
-- Of a list of tables, the i-th holds the next eight of a tree in its array and any eight in its nodes,
-- whose keys are numbers; the first two reach all. What is live is one such list, held by its first two,
-- as the source's roots hold the global table and the registry; what is dead is another, which is made
-- again before each collection. Live and dead ones are made in turns.

local rounds = tonumber(arg[1] or "9")
if not rounds or rounds < 1 then
  io.stderr:write("graph.lua: not a number of rounds: ", arg[1], "\n")
  os.exit(2)
end

-- A table with 8 array places and 8 nodes.
local function made()
  return {
    false, false, false, false, false, false, false, false,
    [-1] = false, [-2] = false, [-3] = false, [-4] = false,
    [-5] = false, [-6] = false, [-7] = false, [-8] = false,
  }
end

local function link(list)
  local n = #list
  for i = 0, n - 1 do
    local t = list[i + 1]
    for j = 0, 7 do
      local any = math.floor((8 * i + j) * 40503 % 65536 / 16)
      t[j + 1] = list[(8 * i + j + 2) % n + 1]
      t[-1 - j] = list[any % n + 1]
    end
  end
end

local states = {
  { name = "all live", is_dead = function() return false end },
  { name = "half dead", is_dead = function(number) return number % 2 == 1 end },
  { name = "all dead", is_dead = function() return true end },
}

-- A full collection; none begins by itself before the next.
local function collect()
  collectgarbage("collect")
  collectgarbage("stop")
end

-- The first two live tables, which reach the others, and how many dead ones there are.
local function heap(slots, state)
  local live, dead = { made(), made() }, 0
  for number = 2, slots - 1 do
    local t = made()
    if state.is_dead(number) then
      dead = dead + 1
    else
      live[#live + 1] = t
    end
  end
  link(live)
  return { live[1], live[2] }, dead
end

local function renew(dead)
  local list = {}
  for i = 1, dead do
    list[i] = made()
  end
  link(list)
end

local function round(dead, repeats)
  local sum = 0
  for _ = 1, repeats do
    renew(dead)
    local start = os.clock()
    collectgarbage("collect")
    sum = sum + (os.clock() - start)
    collectgarbage("stop")
  end
  return sum / repeats * 1e9
end

-- Each size with its name.
local sizes = { { 64, "64" }, { 512, "512" }, { 4096, "4,096" } }

for _, size in ipairs(sizes) do
  local slots, name = size[1], size[2]
  for _, state in ipairs(states) do
    collectgarbage("stop")
    local roots, dead = heap(slots, state)
    collect()
    for _ = 1, rounds do
      print(string.format("%s slots, %s\t%.0f", name, state.name, round(dead, 16384 / slots)))
    end
    assert(roots[1] and roots[2])
  end
end
