cores 1
pool p 1 0
eo x running
queue q parallel x normal all
boot
alloc v0 p 1
send v0 q
end
body x receive
free me
send me q
end
done
