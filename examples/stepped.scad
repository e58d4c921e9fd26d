// bcsg 2 prism
// box -1 -1 -1 61 41 19
union() {
  translate([0,0,0]) linear_extrude(height=4)
    union() {
      difference() {
        intersection() {
          translate([-1,-1,0]) square([62,42]);
          translate([-8192,0,0]) square([16384,8192]);
          translate([-8132,-8192,0]) square([8192,16384]);
        }
        translate([-8132,40,0]) square([16384,8192]);
        translate([-8192,-8152,0]) square([8192,16384]);
        translate([50,20,0]) circle(r=sqrt(36));
      }
    }
  translate([0,0,4]) linear_extrude(height=6)
    union() {
      difference() {
        intersection() {
          translate([-1,-1,0]) square([62,42]);
          translate([-8192,0,0]) square([16384,8192]);
          translate([-8132,-8192,0]) square([8192,16384]);
        }
        translate([-8132,40,0]) square([16384,8192]);
        translate([-8192,-8152,0]) square([8192,16384]);
        translate([50,20,0]) circle(r=sqrt(36));
        translate([18,20,0]) circle(r=sqrt(144));
      }
    }
  translate([0,0,10]) linear_extrude(height=8)
    union() {
      difference() {
        intersection() {
          translate([-1,-1,0]) square([38,42]);
          translate([-8192,0,0]) square([16384,8192]);
          translate([-8156,-8192,0]) square([8192,16384]);
        }
        translate([-8156,40,0]) square([16384,8192]);
        translate([-8192,-8152,0]) square([8192,16384]);
        translate([18,20,0]) circle(r=sqrt(144));
      }
    }
}
