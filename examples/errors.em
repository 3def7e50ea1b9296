cores 1
pool p 1 1
eo x running
eo y running
queue q parallel x normal all
queue r parallel y normal all
boot
alloc v0 p 1 7
send v0 q
end
error
say add 100 fault
say detail
end
body x receive
set v1 8
free 6
say ok
say v1
send me r
end
body x error
say word 0
set v1 9
end
body y receive
free me
free me
end
done
