cores 1
pool p 1 2
eo x running
queue q parallel x normal all
queue wire output
boot
alloc v0 p 4 10 20
send v0 q
end
body x receive
say word 1
send me wire
send me wire
alloc v0 p 5
free v0
end
done
