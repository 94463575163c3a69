-- The hotels of crates/topk/data as one table, for PostgreSQL and SQLite.
create table hotels (
    id bigint primary key,
    price integer not null,
    rating integer not null,
    centre integer not null,
    quiet integer not null
);
insert into hotels values
    (101, 677500, 840000, 965000, 540000),
    (102, 777500, 720000, 810000, 420000),
    (103, 387500, 930000, 910000, 620000),
    (104, 815000, 790000, 975000, 370000),
    (105, 720000, 680000, 985000, 390000),
    (106, 580000, 890000, 988000, 480000),
    (107, 752500, 810000, 760000, 650000),
    (108, 475000, 900000, 940000, 590000),
    (109, 830000, 860000, 690000, 670000),
    (110, 762500, 750000, 860000, 450000),
    (111, 792500, 800000, 780000, 560000),
    (112, 852500, 710000, 480000, 710000),
    (113, 527500, 820000, 955000, 510000),
    (114, 805000, 910000, 590000, 690000),
    (115, 652500, 880000, 991000, 430000),
    (116, 737500, 770000, 830000, 530000),
    (117, 840000, 640000, 920000, 400000),
    (118, 770000, 830000, 930000, 490000),
    (119, 612500, 920000, 640000, 700000),
    (120, 787500, 870000, 880000, 580000),
    (121, 820000, 740000, 900000, 500000),
    (122, 705000, 900000, 840000, 610000),
    (123, 865000, 690000, 720000, 470000),
    (124, 562500, 950000, 370000, 730000);
create index hotels_by_price on hotels (price desc, id);
create index hotels_by_rating on hotels (rating desc, id);
create index hotels_by_centre on hotels (centre desc, id);
create index hotels_by_quiet on hotels (quiet desc, id);
