local size = 11
local free, rising, falling = {}, {}, {}
local found = 0

local function place(row)
  for column = 1, size do
    if free[column] and rising[row + column] and falling[row - column + size] then
      if row == size then
        found = found + 1
      else
        free[column] = false
        rising[row + column] = false
        falling[row - column + size] = false
        place(row + 1)
        free[column] = true
        rising[row + column] = true
        falling[row - column + size] = true
      end
    end
  end
end

for i = 1, size do free[i] = true end
for i = 1, 2 * size do rising[i] = true end
for i = 1, 2 * size - 1 do falling[i] = true end
place(1)
print(found)
