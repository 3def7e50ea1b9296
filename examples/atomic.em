cores 2
pool p 3 0
eo x running
agroup a all
queue q atomic x normal in a
queue r atomic x normal in a
queue s parallel x normal all
boot
alloc v0 p 1
send v0 q
alloc v0 p 2
send v0 r
alloc v0 p 3
send v0 s
end
body x receive
say kind
free me
end
done
