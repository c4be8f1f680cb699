function mpc = case9
%CASE9  Buses and branches of the 9 bus test system.
%   The numbers and types of the buses and the ends of the branches are the known ones.
%   All electrical values are made up.

%% MATPOWER Case Format : Version 2
mpc.version = '2';

%%-----  Power Flow Data  -----%%
%% system MVA base
mpc.baseMVA = 100;

%% bus data
%	bus_i	type	Pd	Qd	Gs	Bs	area	Vm	Va	baseKV	zone	Vmax	Vmin
mpc.bus = [
	1	3	0	0	0	0	1	1	0	230	1	1.1	0.9;
	2	2	0	0	0	0	1	1	0	230	1	1.1	0.9;
	3	2	0	0	0	0	1	1	0	230	1	1.1	0.9;
	4	1	0	0	0	0	1	1	0	230	1	1.1	0.9;
	5	1	80	25	0	0	1	1	0	230	1	1.1	0.9;
	6	1	0	0	0	0	1	1	0	230	1	1.1	0.9;
	7	1	90	30	0	0	1	1	0	230	1	1.1	0.9;
	8	1	0	0	0	0	1	1	0	230	1	1.1	0.9;
	9	1	110	40	0	0	1	1	0	230	1	1.1	0.9;
];

%% generator data
%	bus	Pg	Qg	Qmax	Qmin	Vg	mBase	status	Pmax	Pmin	Pc1	Pc2	Qc1min	Qc1max	Qc2min	Qc2max	ramp_agc	ramp_10	ramp_30	ramp_q	apf
mpc.gen = [
	1	60	0	200	-200	1.02	100	1	300	10	0	0	0	0	0	0	0	0	0	0	0;
	2	150	0	200	-200	1.02	100	1	300	10	0	0	0	0	0	0	0	0	0	0	0;
	3	80	0	200	-200	1.02	100	1	300	10	0	0	0	0	0	0	0	0	0	0	0;
];

%% branch data
%	fbus	tbus	r	x	b	rateA	rateB	rateC	ratio	angle	status	angmin	angmax
mpc.branch = [
	1	4	0	0.06	0	250	250	250	0	0	1	-360	360;
	4	5	0.01	0.1	0.2	250	250	250	0	0	1	-360	360;
	5	6	0.01	0.1	0.2	250	250	250	0	0	1	-360	360;
	3	6	0	0.06	0	250	250	250	0	0	1	-360	360;
	6	7	0.01	0.1	0.2	250	250	250	0	0	1	-360	360;
	7	8	0.01	0.1	0.2	250	250	250	0	0	1	-360	360;
	8	2	0	0.06	0	250	250	250	0	0	1	-360	360;
	8	9	0.01	0.1	0.2	250	250	250	0	0	1	-360	360;
	9	4	0.01	0.1	0.2	250	250	250	0	0	1	-360	360;
];

%%-----  OPF Data  -----%%
%% generator cost data
%	1	startup	shutdown	n	x1	y1	...	xn	yn
%	2	startup	shutdown	n	c(n-1)	...	c0
mpc.gencost = [
	2	1000   0	3	0.1   5   150;
	2	1000   0	3	0.09   1.5   600;
	2	1000   0	3	0.12   1   340;
];

%% bus names
mpc.bus_name = {
	'Bus 1';
	'Bus 2';
	'Bus 3';
	'Bus 4';
	'Bus 5';
	'Bus 6';
	'Bus 7';
	'Bus 8';
	'Bus 9';
};
