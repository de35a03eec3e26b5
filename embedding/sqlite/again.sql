.load ./nardsill_table
.bail on
select nardsill_check('table.idx') like 'ok levels=_ pages=% entries=513 %';
select nardsill_check('unique.idx') like 'ok %', nardsill_check('blob.idx') like 'ok %', nardsill_check('w.idx') like 'ok %';
select nardsill_check('none.idx');
create virtual table t using nardsill('table.idx');
select key, block from t where key >= 'd' order by key limit 2;
insert or ignore into t values ('alice', 1, 1);
select count(*) from t;
create virtual table u using nardsill('unique.idx');
select key, block from u;
