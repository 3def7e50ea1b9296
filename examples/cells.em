cores 2
pool p 2 0
eo x running
queue q atomic x normal all
boot
alloc v0 p 1
send v0 q
alloc v0 p 2
send v0 q
end
body x receive
cell 0 add cell 0 1
say cell 0
if eq kind 1
endatomic
end
say cell 0
free me
end
done
