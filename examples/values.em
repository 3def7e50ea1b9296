cores 1
pool p 1 3
boot
repeat 5
set v1 add v1 1
if eq and v1 1 1
set v0 add v0 v1
else
set v2 or shr v2 1 8
end
end
say v0
say v2
say sub 0 1
say lt v2 v0
alloc v3 p 1 v0 xor v0 v2 mul v0 v2
free v3
end
done
