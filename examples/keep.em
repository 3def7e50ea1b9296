cores 1
pool p 2 1
eo x running
queue q parallel x normal all
boot
alloc v0 p 1 10
send v0 q
alloc v1 p 2 20
send v1 q
end
body x receive
if eq kind 1
keep me
else
say word 0
claim v0
say word 0
free v0
claim v1
free me
end
end
done
