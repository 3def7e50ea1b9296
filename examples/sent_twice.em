cores 1
pool p 2 0
eo x running
queue q parallel x normal all
boot
alloc v0 p 1
send v0 q
send v0 q
end
body x receive
free me
end
done
