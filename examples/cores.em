cores 3
pool p 3 0
eo x running
queue q parallel x normal all
boot
alloc v0 p 1
send v0 q
alloc v1 p 2
send v1 q
alloc v2 p 3
send v2 q
end
body x receive
say kind
if eq kind 1
free 131073
end
free me
end
done
