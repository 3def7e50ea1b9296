cores 1
pool p 2 1
eo x running
queue q parallel x normal all
boot
alloc v0 p 0 1
send v0 q
end
body x receive
say word 0
alloc v0 p 0 add word 0 1
send v0 q
free me
end
done
