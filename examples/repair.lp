% A table says who heads which department, and must name one head for each and one department for each head. Some rows
% contradict others. What do all repairs agree on that drop no row without need?
row(1,sales,ann). row(2,sales,bob). row(3,research,cleo). row(4,support,dan). row(5,support,ann). row(6,archive,eve).
clash(R,S) :- row(R,D,_), row(S,D,_), R < S.
clash(R,S) :- row(R,_,P), row(S,_,P), R < S.
drop(R) | drop(S) :- clash(R,S).
keep(R) :- row(R,_,_), not drop(R).
heads(P,D) :- row(R,D,P), keep(R).
#show heads/2.
