function mpc = case
% A case that MATPOWER reads otherwise than obs does. All of it is made up.
mpc.version = '2';

%% bus data
mpc.bus = [
	1	3	0	0	0	0	1	1	0	110	1	1.1	0.9;
	2	1	20	5	0	0	1	1	0	110	1	1.1	0.9 # the old station
	3	1	30	5	0	0	1	1	0	110	1	1.1	0.9;
%{
	4	1	10	5	0	0	1	1	0	110	1	1.1	0.9;
%}
	5	1	0	0	0	0	1	1	0	110	1	1.1	0.9;
];

%% branch data
mpc.branch = [
	1	2	0.01	0.1	0.2	250	250	250	0	0	1	-360	360;
	2	3	0.01	0.1	0.2	250	250	250	0	0	1	-360	360;
	3	1	0.01	0.1	0.2	250	250	250	0	0	1	-360	360;
	3	5	0.01	0.1	0.2	250	250	250	0	0	1	-360	360;
];

% the line from 2 to 3 is out today
mpc.branch(2, 11) = 0;

mpc.branch = [
	1	2	0.01	0.1	0.2	250	250	250	0	0	1	-360	360;
];
