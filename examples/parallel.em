cores 4
pool p 4 1
eo x running
queue q parallel x normal all
boot
repeat 4
set v1 add v1 1
alloc v0 p 0 v1
send v0 q
end
end
body x receive
say mul word 0 word 0
free me
end
done
