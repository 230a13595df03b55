function sum(n) local s = 0; for i = 0, n - 1 do s = s + (i & 7) end return s end
function fib(n) if n < 2 then return n end return fib(n - 1) + fib(n - 2) end
function churn(n) local s = 0; for i = 0, n - 1 do local p = { x = 0, y = 0 }; p.x = i; s = s + (p.x & 3) end return s end
local Account = {}
Account.__index = Account
function Account:add(more) self.gold = self.gold + more; return self.gold end
function method(n) local a = setmetatable({ gold = 0 }, Account); local s = 0; for i = 0, n - 1 do s = s + a:add(i & 3) end return s end
function many(n)
  local all = {}; for i = 1, 4000 do all[i] = setmetatable({ gold = 0 }, Account) end
  local a = all[2000]; local s = 0; for i = 0, n - 1 do s = s + a:add(i & 3) end
  return s
end
function global(n) total = 0; for i = 0, n - 1 do total = total + (i & 7) end return total end
function sieve(n)
  local composite = {}; for i = 0, n - 1 do composite[i] = false end
  local primes = 0
  for i = 2, n - 1 do if not composite[i] then primes = primes + 1; for j = i + i, n - 1, i do composite[j] = true end end end
  return primes
end
local name, n = arg[1], tonumber(arg[2])
local f = _G[name]
local result = f(n)
local begin = os.clock()
result = f(n)
print(string.format("%s %d %.6f", name, result, os.clock() - begin))
