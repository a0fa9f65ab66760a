local first, second, third = 24, 17, 8

local function t(x, y, z)
  if y < x then
    return (t(t(x - 1, y, z), t(y - 1, z, x), (t(z - 1, x, y))))
  end
  return z
end

print(t(first, second, third))
