profile 1
region 1
runs 2 4 3
runs 3 3 0
runs 4 3 0
runs 5 0 0
runs 6 3 0
runs 7 3 0
flow 3 4 intra 3
flow 3 7 intra 3
flow 6 2 carried 3
flow 6 3 carried 2
flow 6 6 carried 2
flow 7 7 carried 2
end
