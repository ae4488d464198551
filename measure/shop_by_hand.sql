-- Eleven of the requests of examples/shop, written by hand as SQL, each under its name: the values are those of NAME.reply.
--
--   createdb shop; measure/compare_requests --tables examples/shop | psql -Xq -d shop; psql -XAtq -d shop -f measure/shop_by_hand.sql
\echo 01_products_of_a_visitor
with p as (select * from product where not discontinued)
select json_build_object('product', json_agg(json_build_object('sku',sku,'name',name,'priceCents',price_cents,'reviews',(select coalesce(json_agg(json_build_object('stars',stars,'body',body) order by id),'[]') from (select * from review r where r.sku=q.sku and not hidden and body is not null order by id limit 10) r)) order by price_cents desc, sku collate "C")) from (select * from p order by price_cents desc, sku collate "C" limit 5) q;
\echo 03_my_orders
select json_build_object('orders', json_agg(json_build_object('id',id,'status',status,'placedOn',placed_on,'lines',(select json_agg(json_build_object('line',line,'quantity',quantity,'product',(select json_build_object('name',name) from product p where p.sku=l.sku)) order by line) from order_line l where l.order_id=o.id)) order by placed_on collate "C" desc nulls last,id)) from (select * from customer_order where customer_id=11 order by placed_on collate "C" desc nulls last, id limit 3) o;
\echo 07_totals
select json_build_object('count',count(*),'max',max(placed_on collate "C"),'min',min(placed_on collate "C")) from customer_order where status<>'cart' and status in ('sent','returned');
\echo 08_reviews_of_a_product
select json_build_object('count',count(*),'sum',sum(stars),'min',min(stars),'max',max(stars),'nodes',json_agg(json_build_object('stars',stars,'customer',(select json_build_object('name',c.name) from customer c where c.id=r.customer_id and exists(select from stock.warehouse w where w.city=c.city and w.id in (1)))) order by id)) from review r where sku='MU-109';
\echo 10_like
select json_agg(name order by sku collate "C") from (select * from product p where name ilike '%\% wool%' and (not discontinued or exists(select from order_line l join customer_order o on o.id=l.order_id where l.sku=p.sku and o.customer_id=20)) order by sku collate "C" limit 50) q;
\echo 11_distinct
select json_agg(json_build_object('stars',stars,'id',id,'body',body) order by stars desc, id) from (select distinct on (stars) * from review where not hidden and body is not null order by stars desc, id limit 10) q;
\echo 12_sort_through
select json_agg(json_build_object('o',order_id,'l',line,'p',price_cents) order by price_cents desc, placed_on collate "C", order_id,line) from (select l.*,p.price_cents,o.placed_on from order_line l join product p on p.sku=l.sku join customer_order o on o.id=l.order_id where o.status<>'cart' order by price_cents desc, placed_on collate "C", order_id, line limit 6) q;
\echo 13_not_through_two
select json_agg(sku order by sku collate "C") from (select sku from product p where (not discontinued or exists(select from order_line l join customer_order o on o.id=l.order_id where l.sku=p.sku and o.customer_id=11)) and not exists (select from order_line l join customer_order o on o.id=l.order_id where l.sku=p.sku and o.customer_id=11 and o.status='returned') order by sku collate "C" limit 5) q;
\echo 15_include
select json_agg(json_build_object('name',name,'levels',(select json_agg(sku order by sku collate "C") from (select sku from stock.level l where l.warehouse_id=w.id and on_hand>0 order by sku collate "C" limit 2) x)) order by id) from stock.warehouse w;
\echo 18_variables
select json_agg(json_build_object('id',id,'status',status) order by id desc) from (select * from customer_order o where customer_id=11 and status<>'cart' and exists(select from order_line l where l.order_id=o.id and quantity>=5) order by id desc limit 3) q;
\echo 19_aggregate_nodes
select json_build_object('count',count(*),'sum',sum(on_hand),'nodes',json_agg(json_build_object('sku',sku,'on_hand',on_hand) order by sku collate "C")) from stock.level where warehouse_id=3 and on_hand<5;
