% A bicycle is put together from parts. Which parts does every bicycle have that the customer may get?
part(frame,steel;frame,carbon;gear,hub;gear,derailleur;gear,electric;brake,rim;brake,disc;light,dynamo;light,battery).
price(steel,3;carbon,9;hub,4;derailleur,3;electric,8;rim,1;disc,3;dynamo,2;battery,1).
weight(steel,5;carbon,2;hub,2;derailleur,1;electric,4;rim,1;disc,1;dynamo,1;battery,1).
1 { takes(K,P) : part(K,P) } 1 :- part(K,_).
% An electric gear needs a strong frame and disc brakes; a hub gear has no rim brakes; a dynamo goes with rim brakes.
:- takes(gear,electric), takes(frame,carbon).
:- takes(gear,electric), takes(brake,rim).
:- takes(gear,hub), takes(brake,rim).
:- takes(light,dynamo), takes(brake,disc).
% What the customer wants: no more than 13 to pay and no more than 9 to carry.
:- #sum { C,P : takes(_,P), price(P,C) } > 13.
:- #sum { W,P : takes(_,P), weight(P,W) } > 9.
#show takes/2.
