cores 2
pool p 2 0
group second 2
eo x running
eo y running
queue q parallel x normal second
queue l local y normal
boot
alloc v0 p 1
send v0 q
alloc v0 p 2
send v0 l
end
body x receive
send me l
end
body y receive
say core
free me
end
done
