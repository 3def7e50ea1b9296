cores 2
pool p 2 0
eo x running
queue q parallel x normal all
boot
alloc v0 p 1
send v0 q
alloc v0 p 2
send v0 q
end
body x receive
say me
if eq kind 1
free 131073
end
free me
end
done
