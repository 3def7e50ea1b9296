cores 1
pool p 2 0
eo x running
queue q parallel x normal all
boot
alloc v0 p 1
send v0 q
alloc v1 p 2
end
body x receive
say me
alloc v0 p 3
free 65537
end
done
