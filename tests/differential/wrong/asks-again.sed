# src/step.rs: an update that meets a join at 3 reads the stage again at 15.
s/found if me.is_update() => help(me, found),/_ if me.is_update() => Go(15),/
