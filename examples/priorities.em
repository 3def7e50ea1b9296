cores 1
pool p 4 0
eo x running
queue lo parallel x low all
queue hi parallel x high all
boot
alloc v0 p 1
send v0 lo
alloc v0 p 2
send v0 lo
alloc v0 p 3
send v0 hi
end
body x receive
say kind
if eq kind 1
alloc v0 p 4
send v0 hi
end
free me
end
done
