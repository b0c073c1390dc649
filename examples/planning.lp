% A robot carries a box through rooms: 1 - 2 - 3 - 4, and 2 - 4 through a narrow door that the box doesn't pass. Where may the
% box be in the end, within three steps?
door(1,2;2,3;3,4;2,4). narrow(2,4).
way(A,B) :- door(A,B). way(B,A) :- door(A,B).
tight(A,B) :- narrow(A,B). tight(B,A) :- narrow(A,B).
time(0..2).
at(robot,2,0). at(box,1,0).
0 { walk(A,B,T) : way(A,B) } 1 :- time(T).
{ carry(T) } :- time(T).
:- walk(A,B,T), not at(robot,A,T).
:- carry(T), walk(A,B,T), not at(box,A,T).
:- carry(T), walk(A,B,T), tight(A,B).
moved(robot,T) :- walk(_,_,T).
moved(box,T) :- walk(_,_,T), carry(T).
at(robot,B,T+1) :- walk(_,B,T).
at(box,B,T+1) :- walk(_,B,T), carry(T).
at(O,A,T+1) :- at(O,A,T), time(T), not moved(O,T).
end(A) :- at(box,A,3).
#show end/1.
